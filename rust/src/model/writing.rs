//! Write.

use super::answers::{done, plain_error, tag_error, Answer};
use super::crc::crc16;
use super::image::{epc_length, offset_of, password_at, pc_and_epc, words_of};
use super::locks::{
    allows, standing, Standing, ACCESS_PAIR, EPC_PAIR, KILL_PAIR, TID_PAIR, USER_PAIR,
};
use super::reading::{touches_access, touches_kill, Named};
use super::{EPC, RESERVED, TID};
use std::cmp::Ordering;

/// "as 0x39 and then 2 x count data bytes. PL below 9 or not 9 + 2 x count, bank, count: plain
/// 17. State: plain 10."
pub(super) fn write(target: Option<&mut [u8]>, parameters: &[u8]) -> Answer {
    if parameters.len() < 9 {
        hit!(WRITE_PL_BELOW_9);
        return plain_error(0x17);
    }
    let named = Named::of(parameters);
    if parameters.len() != 9 + 2 * named.count {
        hit!(WRITE_PL_NOT_COUNT);
        return plain_error(0x17);
    }
    if named.bank > 3 {
        hit!(WRITE_BANK);
        return plain_error(0x17);
    }
    if named.count < 1 {
        hit!(WRITE_COUNT_0);
        return plain_error(0x17);
    }
    if named.count > 32 {
        hit!(WRITE_COUNT_33);
        return plain_error(0x17);
    }
    // "or answer as with no tag"
    let Some(image) = target else {
        hit!(WRITE_NO_TAG);
        return plain_error(0x10);
    };
    write_words(image, password_at(parameters, 0), &named, &parameters[9..])
}

/// "Password: 16. Range: B3. A touched region not writable: B4. Bank 1, word 1 written, new L + 2
/// above the EPC words: B3. Else all words are written; tail, 00."
fn write_words(image: &mut [u8], password: u32, named: &Named, data: &[u8]) -> Answer {
    let standing = standing(image, password);
    if standing == Standing::Wrong {
        hit!(WRITE_PASSWORD);
        return tag_error(0x16, image);
    }
    if named.end() > words_of(image, named.bank) {
        hit!(WRITE_RANGE);
        return tag_error(0xB3, image);
    }
    if !may_write(image, named, standing == Standing::Secured) {
        return tag_error(0xB4, image);
    }
    match named.bank {
        EPC => return write_epc(image, named.pointer, data),
        RESERVED => hit!(WRITE_RESERVED),
        TID => hit!(WRITE_TID),
        _ => hit!(WRITE_USER),
    }
    store(image, named.bank, named.pointer, data)
}

/// "Else all words are written; tail, 00."
fn store(image: &mut [u8], bank: usize, pointer: usize, data: &[u8]) -> Answer {
    // the tail is "as they stood before the command", so the answer comes before the store
    let answer = done(0x49, image);
    let start = offset_of(image, bank) + 2 * pointer;
    image[start..start + data.len()].copy_from_slice(data);
    answer
}

/// A Write to the EPC bank that passed range and locks. The CRC word is no longer ordinary memory.
fn write_epc(image: &mut [u8], pointer: usize, data: &[u8]) -> Answer {
    // "A Write that names EPC word 0 answers B4 just after the lock check and before the length
    // check."
    if pointer == 0 {
        hit!(WRITE_CRC_WORD);
        return tag_error(0xB4, image);
    }
    if pointer == 1 {
        // "Bank 1, word 1 written, new L + 2 above the EPC words: B3."
        if !does_length_fit(image, usize::from(data[0] >> 3)) {
            hit!(WRITE_NEW_LENGTH_HIGH);
            return tag_error(0xB3, image);
        }
    } else {
        count_place(2 + epc_length(image), pointer, pointer + data.len() / 2);
    }
    let answer = store(image, EPC, pointer, data);
    // "equals the CRC-16 of the stored PC and its L EPC words, after every call too": L is the new
    // one, and what was written behind these words does not count
    let crc = crc16(pc_and_epc(image)).to_be_bytes();
    let start = offset_of(image, EPC);
    image[start..start + 2].copy_from_slice(&crc);
    answer
}

fn does_length_fit(image: &[u8], new_length: usize) -> bool {
    if new_length + 2 > words_of(image, EPC) {
        return false;
    }
    match new_length.cmp(&epc_length(image)) {
        Ordering::Less => hit!(WRITE_LENGTH_SHORTER),
        Ordering::Equal => hit!(WRITE_LENGTH_SAME),
        Ordering::Greater => hit!(WRITE_LENGTH_LONGER),
    }
    true
}

/// Counts where the words from `from` to `to` lie to the end of the EPC.
fn count_place(end: usize, from: usize, to: usize) {
    if from >= end {
        hit!(WRITE_BEHIND_EPC);
        return;
    }
    match to.cmp(&end) {
        Ordering::Less => hit!(WRITE_EPC_WITHIN),
        Ordering::Equal => hit!(WRITE_EPC_TO_ITS_END),
        Ordering::Greater => hit!(WRITE_EPC_OVER_ITS_END),
    }
}

fn may_write(image: &[u8], named: &Named, secured: bool) -> bool {
    match named.bank {
        RESERVED => {
            if touches_kill(named) && !allows(image, KILL_PAIR, secured) {
                hit!(WRITE_KILL_LOCKED);
                return false;
            }
            if touches_access(named) && !allows(image, ACCESS_PAIR, secured) {
                hit!(WRITE_ACCESS_LOCKED);
                return false;
            }
        }
        EPC => {
            if !allows(image, EPC_PAIR, secured) {
                hit!(WRITE_EPC_LOCKED);
                return false;
            }
        }
        TID => {
            if !allows(image, TID_PAIR, secured) {
                hit!(WRITE_TID_LOCKED);
                return false;
            }
        }
        _ => {
            if !allows(image, USER_PAIR, secured) {
                hit!(WRITE_USER_LOCKED);
                return false;
            }
        }
    }
    true
}
