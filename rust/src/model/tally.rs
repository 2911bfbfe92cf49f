//! The seven counts and their limit.

use super::{Bench, FULL_COUNT};

impl Bench {
    /// The seven counts: good answers, error answers, and the bytes dropped for each reason.
    pub fn counts(&self) -> [u64; 7] {
        let [no_header, wrong_type, too_long, wrong_check, wrong_end] = self.dropped;
        [
            self.good,
            self.error,
            no_header,
            wrong_type,
            too_long,
            wrong_check,
            wrong_end,
        ]
    }

    /// "any tally count at 4,294,967,295", "each under the limit of answer 13"
    pub(super) fn is_tally_full(&self) -> bool {
        let Some(full) = self.counts().iter().position(|c| *c == FULL_COUNT) else {
            return false;
        };
        match full {
            0 => hit!(GOOD_FULL),
            1 => hit!(ERROR_FULL),
            2 => hit!(NO_HEADER_FULL),
            3 => hit!(WRONG_TYPE_FULL),
            4 => hit!(TOO_LONG_FULL),
            5 => hit!(WRONG_CHECK_FULL),
            _ => hit!(WRONG_END_FULL),
        }
        true
    }
}
