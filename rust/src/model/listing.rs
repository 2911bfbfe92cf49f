//! The list of failures that the builder signs.

use super::Bench;

/// "cursor before the call, command code [...] or drop reason, error byte ([...] 0 for a drop)"
#[derive(Clone, Copy, Debug, Default, PartialEq, Eq)]
pub struct Record {
    pub cursor: u64,
    /// The command's code; of a drop the number of its reason.
    pub cause: u64,
    pub error: u64,
}

impl Bench {
    fn room(&self) -> u64 {
        self.records.len() as u64
    }

    /// "With the list full every call but acknowledge answers 14"; "a number held above the room
    /// [...], and such a list counts as full".
    pub(super) fn is_list_full(&self) -> bool {
        if self.held < self.room() {
            hit!(LIST_HAS_ROOM);
            return false;
        }
        if self.held > self.room() {
            hit!(LIST_HELD_ABOVE_ROOM);
        } else if self.records.is_empty() {
            hit!(LIST_OF_NO_ROOM);
        } else {
            hit!(LIST_FULL);
        }
        true
    }

    /// "Each error answer and each drop adds exactly one record, in order." The cursor is still the
    /// one before the call. A call that comes so far has found room.
    pub(super) fn list(&mut self, cause: u64, error: u64) {
        self.records[self.held as usize] = Record {
            cursor: self.cursor,
            cause,
            error,
        };
        self.held += 1;
    }

    /// "An acknowledge call answers 16, removes the first n records, and the rest move up". "It makes no
    /// other test and touches nothing else", so length and reason stay those of the last call.
    pub fn acknowledge(&mut self, n: u64) -> u64 {
        // "n above the number held, or a number held above the room, is refused with 15"
        if self.held > self.room() {
            match n {
                0 => hit!(ACKNOWLEDGE_NONE_ABOVE_ROOM),
                _ => hit!(ACKNOWLEDGE_ABOVE_ROOM),
            }
            return 15;
        }
        let Some(rest) = self.held.checked_sub(n) else {
            hit!(ACKNOWLEDGE_TOO_MANY);
            return 15;
        };
        match (n, rest) {
            (0, 0) => hit!(ACKNOWLEDGE_NONE_OF_NONE),
            (0, _) => hit!(ACKNOWLEDGE_NONE),
            (_, 0) => hit!(ACKNOWLEDGE_ALL),
            // the records move over places that others of them move from
            _ if rest > n => hit!(ACKNOWLEDGE_LESS_THAN_HALF),
            _ => hit!(ACKNOWLEDGE_HALF_OR_MORE),
        }
        // "what stands behind the records is left free"
        self.records.copy_within(n as usize..self.held as usize, 0);
        self.held = rest;
        16
    }
}
