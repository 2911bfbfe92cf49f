//! Lock.

use super::answers::{done, plain_error, tag_error, Answer};
#[cfg(feature = "count-branches")]
use super::counters;
use super::image::{double, password_at, words_of};
use super::locks::{standing, Standing, PASSWORD_BIT, PERMALOCK_BIT, REGIONS, USER_PAIR};
use super::USER;

/// "password (4), LD (3). PL not 7 or the top four bits of LD not 0: plain 17. State: plain 13.
/// Password: 16. Not secured: plain 13 (house)."
pub(super) fn lock(target: Option<&mut [u8]>, parameters: &[u8]) -> Answer {
    if parameters.len() != 7 {
        hit!(LOCK_PL);
        return plain_error(0x17);
    }
    if parameters[4] > 0x0F {
        hit!(LOCK_TOP_BITS);
        return plain_error(0x17);
    }
    // "or answer as with no tag"
    let Some(image) = target else {
        hit!(LOCK_NO_TAG);
        return plain_error(0x13);
    };
    match standing(image, password_at(parameters, 0)) {
        Standing::Wrong => {
            hit!(LOCK_PASSWORD);
            return tag_error(0x16, image);
        }
        Standing::Open => {
            hit!(LOCK_NOT_SECURED);
            return plain_error(0x13);
        }
        Standing::Secured => {}
    }
    // "LD bits 19 to 10 are the mask, 9 to 0 the action."
    let ld = usize::from(parameters[4]) * 65536 + double(parameters, 5);
    lock_masked(image, ld >> 10, ld & 0x3FF)
}

/// A Lock that the password lets through.
fn lock_masked(image: &mut [u8], mask: usize, action: usize) -> Answer {
    // "Mask touches User and User has 0 words: C3."
    if mask >> USER_PAIR & 3 != 0 {
        if words_of(image, USER) == 0 {
            hit!(LOCK_NO_USER);
            return tag_error(0xC3, image);
        }
        hit!(LOCK_USER_THERE);
    } else {
        hit!(LOCK_USER_NOT_MASKED);
    }
    lock_regions(image, mask, action)
}

/// A Lock that got as far as the pairs. "Refusal of any region comes before any store."
fn lock_regions(image: &mut [u8], mask: usize, action: usize) -> Answer {
    let old = double(image, 20);
    let fields = REGIONS.map(|shift| Field {
        old: old >> shift & 3,
        mask: mask >> shift & 3,
        action: action >> shift & 3,
    });
    let pairs = fields.map(new_pair);
    #[cfg(feature = "count-branches")]
    counters::add_lock(&fields, &pairs);
    let mut new = 0;
    for (pair, shift) in pairs.into_iter().zip(REGIONS) {
        // "refuses the whole command with C4"
        let Some(pair) = pair else {
            hit!(LOCK_REFUSED);
            return tag_error(0xC4, image);
        };
        new |= pair << shift;
    }
    // "Else all pairs are stored; tail, 00."
    hit!(LOCK_GOOD);
    image[20] = (new / 256) as u8;
    image[21] = (new % 256) as u8;
    done(0x82, image)
}

/// What a Lock asks of one region: the old pair, and the two bits of its mask and of its action.
#[derive(Clone, Copy)]
pub(super) struct Field {
    pub(super) old: usize,
    pub(super) mask: usize,
    pub(super) action: usize,
}

/// The pair that a field leads to, or none where it refuses the command.
fn new_pair(Field { old, mask, action }: Field) -> Option<usize> {
    // "A new pair takes masked bits from the action, others from the old pair."
    let taken = (old & !mask) | (action & mask);
    if old & PERMALOCK_BIT == 0 {
        hit!(LOCK_NO_PERMALOCK);
        return Some(taken);
    }
    // "For each region whose permalock bit is already 1: a masked permalock bit with action 0 refuses"
    if mask & PERMALOCK_BIT != 0 {
        if action & PERMALOCK_BIT == 0 {
            hit!(LOCK_PERMALOCK_LIFTED);
            return None;
        }
        // "a masked one with action 1 makes this region's field ignored", its password bit too
        if taken == old {
            hit!(LOCK_PERMALOCK_REPEATED);
        } else {
            hit!(LOCK_REPEATED_WITH_OTHER_PASSWORD_BIT);
        }
        return Some(old);
    }
    // "if only the password bit is masked, a differing action refuses with C4"
    if mask & PASSWORD_BIT != 0 {
        if action & PASSWORD_BIT != old & PASSWORD_BIT {
            hit!(LOCK_PASSWORD_BIT_DIFFERS);
            return None;
        }
        // "and an equal one changes nothing"
        hit!(LOCK_PASSWORD_BIT_EQUAL);
        return Some(old);
    }
    hit!(LOCK_PERMALOCKED_NOT_MASKED);
    Some(old)
}
