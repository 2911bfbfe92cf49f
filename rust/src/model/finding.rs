//! The finding rules, with the reason of a dropped byte.

use super::image::double;
use super::{Reason, MOST_PARAMETERS};

pub(super) enum Found {
    Nothing,
    Waiting,
    Dropped(Reason),
    /// A whole command with this many parameter bytes.
    Accepted(usize),
}

/// "Finding a command", on what is left from the cursor. The rules are tried in their order, so the
/// first that drops gives the reason.
pub(super) fn find(rest: &[u8]) -> Found {
    // "1. nothing left: answer 1"
    if rest.is_empty() {
        hit!(NOTHING_LEFT);
        return Found::Nothing;
    }
    // "2. first byte not BB: drop it"
    if rest[0] != 0xBB {
        hit!(NO_HEADER);
        return Found::Dropped(Reason::NoHeader);
    }
    // "3. second byte there and not 00: drop the BB"
    if rest.len() >= 2 && rest[1] != 0 {
        match rest[1] {
            1 => hit!(TYPE_RESPONSE),
            2 => hit!(TYPE_NOTIFICATION),
            _ => hit!(TYPE_UNKNOWN),
        }
        return Found::Dropped(Reason::WrongType);
    }
    find_end(rest)
}

/// The rules from the fourth on, for what starts as a command does.
fn find_end(rest: &[u8]) -> Found {
    // A frame of which PL is not there yet is "not all there" (rule 5).
    if rest.len() < 5 {
        if rest.len() < 2 {
            hit!(ONLY_HEADER);
        } else {
            hit!(TYPE_BUT_NO_PL);
        }
        return Found::Waiting;
    }
    // "4. five bytes there and PL above 80: drop the BB"
    let pl = double(rest, 3);
    if pl > MOST_PARAMETERS {
        if pl == MOST_PARAMETERS + 1 {
            hit!(PL_81);
        } else {
            hit!(PL_ABOVE_81);
        }
        return Found::Dropped(Reason::TooLong);
    }
    // "5. frame not all there: answer 2"
    if rest.len() < 7 + pl {
        hit!(FRAME_CUT);
        return Found::Waiting;
    }
    // "6. check wrong, or last byte not 7E: drop the BB"
    if let Some(reason) = wrong_at_the_end(&rest[..7 + pl]) {
        return Found::Dropped(reason);
    }
    // "7. else the frame is accepted"
    hit!(ACCEPTED);
    Found::Accepted(pl)
}

/// Rule 6 on a whole frame, "check before end": with both wrong the reason is the check.
fn wrong_at_the_end(frame: &[u8]) -> Option<Reason> {
    let at = frame.len() - 2;
    let end_wrong = frame[at + 1] != 0x7E;
    if check(&frame[1..at]) != frame[at] {
        if end_wrong {
            hit!(CHECK_AND_END_WRONG);
        } else {
            hit!(CHECK_WRONG);
        }
        return Some(Reason::WrongCheck);
    }
    if end_wrong {
        hit!(END_WRONG);
        return Some(Reason::WrongEnd);
    }
    None
}

/// "Check is the sum of all bytes from type to the last parameter, modulo 256."
pub(super) fn check(bytes: &[u8]) -> u8 {
    let mut sum: u8 = 0;
    for b in bytes {
        sum = sum.wrapping_add(*b);
    }
    sum
}
