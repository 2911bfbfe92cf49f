//! Read, and the words that a Read or a Write names.

use super::answers::{plain_error, tag_error, Answer};
use super::image::{double, offset_of, password_at, words_of};
use super::locks::{allows, standing, Standing, ACCESS_PAIR, KILL_PAIR};
use super::{EPC, RESERVED, TID};

/// The words that a Read or a Write names.
pub(super) struct Named {
    pub(super) bank: usize,
    pub(super) pointer: usize,
    pub(super) count: usize,
}

impl Named {
    /// "password (4), bank (1), pointer (2), count (2)"
    pub(super) fn of(parameters: &[u8]) -> Named {
        Named {
            bank: usize::from(parameters[4]),
            pointer: double(parameters, 5),
            count: double(parameters, 7),
        }
    }

    pub(super) fn end(&self) -> usize {
        self.pointer + self.count
    }
}

pub(super) fn touches_kill(named: &Named) -> bool {
    if named.pointer < 2 {
        hit!(REGION_KILL_TOUCHED);
        return true;
    }
    hit!(REGION_KILL_UNTOUCHED);
    false
}

pub(super) fn touches_access(named: &Named) -> bool {
    if named.end() > 2 {
        hit!(REGION_ACCESS_TOUCHED);
        return true;
    }
    hit!(REGION_ACCESS_UNTOUCHED);
    false
}

/// "PL not 9, bank above 3, count not 1 to 32: plain 17. State not 0: plain 09."
pub(super) fn read(target: Option<&[u8]>, parameters: &[u8]) -> Answer {
    if parameters.len() != 9 {
        hit!(READ_PL);
        return plain_error(0x17);
    }
    let named = Named::of(parameters);
    if named.bank > 3 {
        hit!(READ_BANK);
        return plain_error(0x17);
    }
    if named.count < 1 {
        hit!(READ_COUNT_0);
        return plain_error(0x17);
    }
    if named.count > 32 {
        hit!(READ_COUNT_33);
        return plain_error(0x17);
    }
    // "or answer as with no tag"
    let Some(image) = target else {
        hit!(READ_NO_TAG);
        return plain_error(0x09);
    };
    read_words(image, password_at(parameters, 0), &named)
}

/// "Wrong password: tag error 16. Pointer + count above the bank's words: A3. A touched password
/// region not readable: A4. Else the tail, then the words."
fn read_words(image: &[u8], password: u32, named: &Named) -> Answer {
    let standing = standing(image, password);
    if standing == Standing::Wrong {
        hit!(READ_PASSWORD);
        return tag_error(0x16, image);
    }
    if named.end() > words_of(image, named.bank) {
        hit!(READ_RANGE);
        return tag_error(0xA3, image);
    }
    let secured = standing == Standing::Secured;
    // "EPC, TID and User can always be read."
    if named.bank == RESERVED {
        if touches_kill(named) && !allows(image, KILL_PAIR, secured) {
            hit!(READ_KILL_LOCKED);
            return tag_error(0xA4, image);
        }
        if touches_access(named) && !allows(image, ACCESS_PAIR, secured) {
            hit!(READ_ACCESS_LOCKED);
            return tag_error(0xA4, image);
        }
    }
    match named.bank {
        RESERVED => hit!(READ_RESERVED),
        EPC => hit!(READ_EPC),
        TID => hit!(READ_TID),
        _ => hit!(READ_USER),
    }
    let start = offset_of(image, named.bank) + 2 * named.pointer;
    Answer::new(1, 0x39)
        .tail(image)
        .bytes(&image[start..start + 2 * named.count])
}
