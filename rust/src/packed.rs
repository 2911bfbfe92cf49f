//! The C interface of the proved bench, as it is: slices, and a state of thirteen numbers.

use std::ops::Range;

/// The numbers of the packed state: cursor, good, error, the five dropped counts in the order of
/// their reasons, length, reason, next, selected, held.
pub const STATE_LENGTH: usize = 13;
/// Where the packed state has its numbers. The seven counts stand in one row, the dropped ones last.
pub const CURSOR: usize = 0;
pub const COUNTS: Range<usize> = 1..8;
pub const DROPPED: Range<usize> = 3..8;
pub const LENGTH: usize = 8;
pub const REASON: usize = 9;
/// The number of the first tag that may still be handed out.
pub const NEXT: usize = 10;
/// How many of the selection's bytes are the selection.
pub const SELECTED: usize = 11;
/// How many records the list holds.
pub const HELD: usize = 12;

/// The numbers of one record: the cursor before the call, the command's code or the reason of a drop,
/// the error byte or 0 for a drop.
pub const RECORD_LENGTH: usize = 3;
/// The longest parameters that Set Select takes: 7 bytes, and a mask of 255 bits in 32.
pub const SELECTION_LENGTH: usize = 39;
/// A crate holds up to so many tags. As a number to hand out from on it means that none is left.
pub const MOST_TAGS: usize = 16;
pub const NONE_TO_HAND_OUT: u64 = MOST_TAGS as u64;
/// The largest count, and the largest number of a place.
pub const LIMIT: u64 = 4_294_967_295;

/// The library refuses a state that does not have thirteen numbers.
pub const STATE_LENGTH_WRONG: u64 = 20;
/// The library refuses a count above 4,294,967,295.
pub const COUNT_OUT_OF_RANGE: u64 = 21;
/// The library refuses an odd number of place numbers, and one above 4,294,967,295 among the first 32.
pub const PLACES_OUT_OF_RANGE: u64 = 22;
/// The library refuses a list that has not three numbers for each record.
pub const RECORDS_LENGTH_WRONG: u64 = 23;

/// The list is full: a call waits for an acknowledge.
pub const LIST_FULL: u64 = 14;
/// An acknowledge is refused: it asks for more records than the list holds, or the list says that it
/// holds more than it has room for.
pub const NOT_ACKNOWLEDGED: u64 = 15;
/// An acknowledge was made.
pub const ACKNOWLEDGED: u64 = 16;

mod library {
    use super::SELECTION_LENGTH;

    extern "C" {
        pub fn poldrisk_call(
            input: *const u8,
            input_length: usize,
            memory: *mut u8,
            memory_length: usize,
            output: *mut u8,
            output_length: usize,
            places: *const u64,
            places_length: usize,
            selection: *mut [u8; SELECTION_LENGTH],
            records: *mut u64,
            records_length: usize,
            state: *mut u64,
            state_length: usize,
        ) -> u64;

        pub fn poldrisk_acknowledge(
            records: *mut u64,
            records_length: usize,
            state: *mut u64,
            state_length: usize,
            count: u64,
        ) -> u64;
    }
}

/// All that a call is lent besides its input. Any lengths and numbers will do: what does not fit is
/// refused with a number.
#[derive(Clone, Debug, PartialEq, Eq)]
pub struct Packed {
    pub memory: Vec<u8>,
    /// Two numbers for each tag: where its image starts in the memory, and its bytes.
    pub places: Vec<u64>,
    pub selection: [u8; SELECTION_LENGTH],
    pub output: Vec<u8>,
    /// The list of failures: three numbers for each record that it has room for.
    pub records: Vec<u64>,
    pub state: Vec<u64>,
}

impl Packed {
    /// One call of the bench.
    pub fn call(&mut self, input: &[u8]) -> u64 {
        // SAFETY: each pointer comes with the length of its slice, the selection's is that of 39
        // bytes, and no two of them overlap, since all but the input are this struct's own.
        unsafe {
            library::poldrisk_call(
                input.as_ptr(),
                input.len(),
                self.memory.as_mut_ptr(),
                self.memory.len(),
                self.output.as_mut_ptr(),
                self.output.len(),
                self.places.as_ptr(),
                self.places.len(),
                &mut self.selection,
                self.records.as_mut_ptr(),
                self.records.len(),
                self.state.as_mut_ptr(),
                self.state.len(),
            )
        }
    }

    /// Takes the first records off the list.
    pub fn acknowledge(&mut self, count: u64) -> u64 {
        // SAFETY: as for a call.
        unsafe {
            library::poldrisk_acknowledge(
                self.records.as_mut_ptr(),
                self.records.len(),
                self.state.as_mut_ptr(),
                self.state.len(),
                count,
            )
        }
    }
}

#[cfg(test)]
mod tests;
