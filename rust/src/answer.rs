//! How a call ends.

use crate::packed::{Packed, LENGTH, REASON};

#[derive(Clone, Copy, Debug, PartialEq, Eq)]
pub enum Answer {
    /// A command was accepted, or the next tag of an inventory handed out; the answer frame has this
    /// many bytes.
    Answered(usize),
    AtEnd,
    Incomplete,
    /// The byte at the cursor was dropped, for this reason.
    Dropped(Reason),
    PastEnd,
    /// More than sixteen tags, places that overlap or leave the memory, a bad image, or a selection
    /// that Set Select would not take.
    BadCrate,
    FullTally,
    /// The list of failures has no room: some of it is to be acknowledged first.
    FullList,
}

/// Why a byte was dropped. A byte for which several would do has the first of them.
#[derive(Clone, Copy, Debug, PartialEq, Eq)]
pub enum Reason {
    /// It is not BB.
    NoHeader = 1,
    /// It is a BB, and the byte behind it is not 00.
    WrongType = 2,
    /// It is a BB with a PL above 80 behind it.
    TooLong = 3,
    /// It is the BB of a whole frame with another check than the sum of its bytes.
    WrongCheck = 4,
    /// It is the BB of a whole frame with the right check and another last byte than 7E.
    WrongEnd = 5,
}

impl Reason {
    pub(crate) fn of(number: u64) -> Reason {
        match number {
            1 => Reason::NoHeader,
            2 => Reason::WrongType,
            3 => Reason::TooLong,
            4 => Reason::WrongCheck,
            5 => Reason::WrongEnd,
            // the library gives one of the five, under answer 3 and in the record of a drop
            other => unreachable!("reason {other}"),
        }
    }
}

impl Answer {
    /// What a call's number says, with the length or the reason that it left.
    pub(crate) fn of(number: u64, left: &Packed) -> Answer {
        match number {
            0 => Answer::Answered(left.state[LENGTH] as usize),
            1 => Answer::AtEnd,
            2 => Answer::Incomplete,
            3 => Answer::Dropped(Reason::of(left.state[REASON])),
            10 => Answer::PastEnd,
            11 => Answer::BadCrate,
            13 => Answer::FullTally,
            14 => Answer::FullList,
            // the others cannot come: the output has 136 bytes, the state thirteen numbers, a place
            // two, a record three, and counts and places are 32 bits wide
            other => unreachable!("answer number {other}"),
        }
    }
}
