//! An independent implementation of the scope document ("Bench reader and tag: exact rules") and of
//! the later changes "Why was the byte dropped?", "Locks put right for repeated permalocks", "The tag
//! keeps its own CRC word", "Sixteen tags in the crate" and "The list the builder signs", written from
//! these papers alone. It shares no code and no definition with the proved bench, so a mistake would
//! have to be made twice to stay unseen. Quoted lines are the papers'. Over it stands the failure sheet
//! ([`sheet`]).

#[macro_use]
mod branches;
mod aiming;
mod answers;
#[cfg(feature = "count-branches")]
mod counters;
mod crate_rules;
mod crc;
mod executing;
mod finding;
mod image;
mod killing;
mod listing;
mod locking;
mod locks;
mod reading;
mod selection;
pub mod sheet;
mod tally;
mod writing;

#[cfg(feature = "count-branches")]
pub use counters::read as branch_counts;
pub use crc::crc16;
pub use listing::Record;

use answers::Answer;
use finding::{find, Found};

/// "Answers have at most 136 bytes."
const LONGEST_ANSWER: usize = 136;
/// "Commands here have PL at most 80."
const MOST_PARAMETERS: usize = 80;
/// "any tally count at 4,294,967,295"
const FULL_COUNT: u64 = 4_294_967_295;

/// "A crate holds up to 16 tags"
const MOST_TAGS: usize = 16;
/// The number to go on from where no tag is still to be handed out.
pub const NONE_TO_HAND_OUT: u64 = MOST_TAGS as u64;

/// The room of a list that nothing else is said of. The papers name none.
const ROOM: usize = 64;

const RESERVED: usize = 0;
const EPC: usize = 1;
const TID: usize = 2;
const USER: usize = 3;

/// What one bench holds between calls, and the length and the reason that its last call reported.
#[derive(Clone, Debug, PartialEq, Eq)]
pub struct Bench {
    /// "one lent memory"
    pub memory: Vec<u8>,
    /// "each with its place": where a tag's image starts in the memory, and its bytes.
    pub places: Vec<(u64, u64)>,
    /// The parameters of the Set Select that made it; "starts empty".
    pub selection: Vec<u8>,
    /// Of the tags from this number on, those present and matching are still to be handed out.
    pub next: u64,
    pub output: Vec<u8>,
    pub cursor: u64,
    pub good: u64,
    pub error: u64,
    /// "The tally's one dropped count becomes five": one for each reason, in their order.
    pub dropped: [u64; 5],
    pub length: u64,
    /// The number of the reason under answer 3, else 0.
    pub reason: u64,
    /// "a lent list of failure records": its whole room, of which the first `held` are records.
    pub records: Vec<Record>,
    pub held: u64,
}

/// "1 no header, 2 wrong type, 3 too long, 4 wrong check, 5 wrong end"
#[derive(Clone, Copy, Debug, PartialEq, Eq)]
enum Reason {
    NoHeader = 1,
    WrongType = 2,
    TooLong = 3,
    WrongCheck = 4,
    WrongEnd = 5,
}

impl Bench {
    /// A bench at the start, with this tag alone.
    pub fn new(image: Vec<u8>) -> Bench {
        Bench::of_tags(&[image])
    }

    /// A bench at the start: these tags one behind the other in the memory, no selection and nothing
    /// to hand out, the shortest output that will do, cursor and counts at 0, a list that "starts empty".
    pub fn of_tags(images: &[Vec<u8>]) -> Bench {
        let mut from = 0;
        let place = |image: &Vec<u8>| {
            let size = image.len() as u64;
            from += size;
            (from - size, size)
        };
        Bench {
            places: images.iter().map(place).collect(),
            memory: images.concat(),
            selection: Vec::new(),
            next: NONE_TO_HAND_OUT,
            output: vec![0; LONGEST_ANSWER],
            cursor: 0,
            good: 0,
            error: 0,
            dropped: [0; 5],
            length: 0,
            reason: 0,
            records: vec![Record::default(); ROOM],
            held: 0,
        }
    }

    /// One call on the input: the paper's answer number.
    pub fn call(&mut self, input: &[u8]) -> u64 {
        // "The call reports the length written, 0 in all other cases."
        self.length = 0;
        // "Answer 3 now carries a reason", and no other answer does
        self.reason = 0;
        if let Some(refusal) = self.refusal(input.len() as u64) {
            return refusal;
        }
        let rest = &input[self.cursor as usize..];
        // "Inventory hands out each matching present tag exactly once, in rising number, one per
        // call, then takes the next command": so before the finding rules, whatever the input holds
        if let Some(tag) = self.tag_to_hand_out() {
            if rest.is_empty() {
                hit!(HAND_OUT_AT_THE_END);
            } else {
                hit!(HAND_OUT_BEFORE_MORE);
            }
            // "The cursor moves with the first of them only"
            let answer = self.hand_out(tag);
            self.write(&answer);
            return 0;
        }
        match find(rest) {
            Found::Nothing => 1,
            Found::Waiting => 2,
            Found::Dropped(reason) => {
                self.drop_byte(reason);
                3
            }
            Found::Accepted(pl) => {
                self.take(rest[2], &rest[5..5 + pl]);
                0
            }
        }
    }

    /// An accepted command.
    fn take(&mut self, code: u8, parameters: &[u8]) {
        let answer = self.execute(code, parameters);
        self.write(&answer);
        if let Some(error) = answer.error() {
            self.list(code.into(), error.into());
        }
        // "cursor moves over the command"
        self.cursor += 7 + parameters.len() as u64;
    }

    /// "Tests in the order 10, 11, 12, 13", then 14, "tested after 13", "then the finding rules"
    fn refusal(&self, input_length: u64) -> Option<u64> {
        if self.cursor > input_length {
            hit!(CURSOR_PAST_END);
            return Some(10);
        }
        hit!(CURSOR_WITHIN);
        if !self.is_crate_good() {
            hit!(CRATE_BAD);
            return Some(11);
        }
        hit!(CRATE_GOOD);
        if self.output.len() < LONGEST_ANSWER {
            hit!(OUTPUT_SHORT);
            return Some(12);
        }
        hit!(OUTPUT_ENOUGH);
        if self.is_tally_full() {
            return Some(13);
        }
        hit!(TALLY_FREE);
        self.is_list_full().then_some(14)
    }

    /// "a byte dropped | cursor plus 1", and the count of its reason is raised.
    fn drop_byte(&mut self, reason: Reason) {
        self.list(reason as u64, 0);
        self.cursor += 1;
        self.reason = reason as u64;
        self.dropped[reason as usize - 1] += 1;
    }

    /// Writes an answer to the output, and counts it.
    fn write(&mut self, answer: &Answer) {
        let length = answer.write(&mut self.output);
        self.length = length as u64;
        if answer.error().is_some() {
            hit!(COUNTED_ERROR);
            self.error += 1;
        } else {
            hit!(COUNTED_GOOD);
            self.good += 1;
        }
    }
}

#[cfg(test)]
mod tests;
