//! Passwords and lock pairs.

use super::image::{access_password, double};

/// How a command stands to the tag by the access password it carries.
#[derive(PartialEq, Eq)]
pub(super) enum Standing {
    Secured,
    Open,
    Wrong,
}

pub(super) fn standing(image: &[u8], given: u32) -> Standing {
    let stored = access_password(image);
    if given == 0 {
        // "its stored access password is zero and the command's is zero"
        if stored == 0 {
            hit!(SECURED_BOTH_ZERO);
            return Standing::Secured;
        }
        // "A zero password against a nonzero stored one leaves the tag open."
        hit!(OPEN_ZERO_GIVEN);
        return Standing::Open;
    }
    // "or the command's is nonzero and equal"
    if given == stored {
        hit!(SECURED_EQUAL);
        return Standing::Secured;
    }
    // "A nonzero password that differs is wrong, also where the stored one is zero."
    if stored == 0 {
        hit!(WRONG_STORED_ZERO);
    } else {
        hit!(WRONG_STORED_NONZERO);
    }
    Standing::Wrong
}

/// "Pairs, from bit 9 down: kill 9,8; access 7,6; EPC 5,4; TID 3,2; User 1,0."
pub(super) const KILL_PAIR: usize = 8;
pub(super) const ACCESS_PAIR: usize = 6;
pub(super) const EPC_PAIR: usize = 4;
pub(super) const TID_PAIR: usize = 2;
pub(super) const USER_PAIR: usize = 0;
pub(super) const REGIONS: [usize; 5] = [KILL_PAIR, ACCESS_PAIR, EPC_PAIR, TID_PAIR, USER_PAIR];

/// "The high bit of a pair is the password bit, the low bit the permalock bit"
pub(super) const PASSWORD_BIT: usize = 2;
pub(super) const PERMALOCK_BIT: usize = 1;

/// Whether the region of the pair whose low bit is at `shift` is free to a command that is
/// secured or not: the table under "Lock bits".
pub(super) fn allows(image: &[u8], shift: usize, secured: bool) -> bool {
    match double(image, 20) >> shift & 3 {
        0 => {
            hit!(PAIR_FREE);
            true
        }
        1 => {
            hit!(PAIR_PERMANENTLY_FREE);
            true
        }
        2 => {
            if secured {
                hit!(PAIR_SECURED_YES);
            } else {
                hit!(PAIR_SECURED_NO);
            }
            secured
        }
        _ => {
            hit!(PAIR_NEVER);
            false
        }
    }
}
