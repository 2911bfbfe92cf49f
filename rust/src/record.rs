//! What the list of failures holds.

use crate::answer::Reason;
use crate::packed::RECORD_LENGTH;

/// One failure: where the cursor stood before the call, and what came of it.
#[derive(Clone, Copy, Debug, PartialEq, Eq)]
pub struct Record {
    pub cursor: u64,
    pub failure: Failure,
}

#[derive(Clone, Copy, Debug, PartialEq, Eq)]
pub enum Failure {
    /// A byte was dropped, for this reason.
    Dropped(Reason),
    /// A command with this code was answered with an error frame, whose error byte this is.
    Error { code: u8, error: u8 },
}

impl Record {
    /// The record that the library wrote as these numbers. No error byte is 0.
    pub(crate) fn of(numbers: &[u64; RECORD_LENGTH]) -> Record {
        let [cursor, cause, error] = *numbers;
        let byte = |n: u64| u8::try_from(n).expect("code and error byte are bytes");
        Record {
            cursor,
            failure: match error {
                0 => Failure::Dropped(Reason::of(cause)),
                _ => Failure::Error {
                    code: byte(cause),
                    error: byte(error),
                },
            },
        }
    }
}
