//! A crate of tags with a reader before it, over the packed interface.

use crate::answer::{Answer, Reason};
use crate::packed::{
    Packed, ACKNOWLEDGED, COUNTS, CURSOR, DROPPED, HELD, LENGTH, NEXT, NONE_TO_HAND_OUT,
    RECORD_LENGTH, SELECTED, SELECTION_LENGTH, STATE_LENGTH,
};
use crate::record::Record;
use std::ops::Range;

/// The longest answer frame.
const LONGEST_ANSWER: usize = 136;

/// Where a tag's image stands in the memory.
#[derive(Clone, Copy, Debug, PartialEq, Eq)]
pub struct Place {
    pub from: u32,
    pub size: u32,
}

/// A memory with the tags of a crate, a selection, what is still to be handed out of an inventory,
/// the reader's cursor and tally, and the list of failures.
#[derive(Clone, Debug, PartialEq, Eq)]
pub struct Bench {
    packed: Packed,
}

impl Bench {
    /// A bench at the start, on any memory and places: a call says whether they are good. No tag is
    /// selected out or still to be handed out, cursor and counts are 0, and the list is empty. It has
    /// room for so many records; with room for none every call is refused.
    pub fn new(memory: Vec<u8>, places: &[Place], room: usize) -> Bench {
        let mut state = vec![0; STATE_LENGTH];
        state[NEXT] = NONE_TO_HAND_OUT;
        Bench {
            packed: Packed {
                memory,
                places: numbers_of(places),
                selection: [0; SELECTION_LENGTH],
                output: vec![0; LONGEST_ANSWER],
                records: vec![0; RECORD_LENGTH * room],
                state,
            },
        }
    }

    /// The same with these images one behind the other. None where they have more bytes than a
    /// place can say.
    pub fn of_tags(images: &[&[u8]], room: usize) -> Option<Bench> {
        let mut from = 0u32;
        let mut places = Vec::new();
        for image in images {
            let size = u32::try_from(image.len()).ok()?;
            places.push(Place { from, size });
            from = from.checked_add(size)?;
        }
        Some(Bench::new(images.concat(), &places, room))
    }

    /// One call: hands out the next tag of an inventory, or looks at the input from the cursor and
    /// takes one command or drops one byte.
    pub fn call(&mut self, input: &[u8]) -> Answer {
        let number = self.packed.call(input);
        Answer::of(number, &self.packed)
    }

    /// The failures that are not yet acknowledged: each error answer and each dropped byte, in order.
    pub fn records(&self) -> impl ExactSizeIterator<Item = Record> + '_ {
        let held = self.packed.state[HELD] as usize;
        let (records, _) = self.packed.records.as_chunks();
        records[..held].iter().map(Record::of)
    }

    /// How many records the list has room for.
    pub fn room(&self) -> usize {
        self.packed.records.len() / RECORD_LENGTH
    }

    /// Takes the first records off the list, and the rest move up. False, and nothing changed, where it
    /// holds fewer.
    pub fn acknowledge(&mut self, count: usize) -> bool {
        self.packed.acknowledge(count as u64) == ACKNOWLEDGED
    }

    /// The answer frame of the last call; empty where it wrote none.
    pub fn frame(&self) -> &[u8] {
        &self.packed.output[..self.packed.state[LENGTH] as usize]
    }

    pub fn memory(&self) -> &[u8] {
        &self.packed.memory
    }

    /// The memory to change between calls: a tag put into the field, or taken out of it.
    pub fn memory_mut(&mut self) -> &mut [u8] {
        &mut self.packed.memory
    }

    /// Gives the tags other places, or the crate other tags.
    pub fn set_places(&mut self, places: &[Place]) {
        self.packed.places = numbers_of(places);
    }

    /// The parameters of the Set Select that holds; empty before the first.
    pub fn selection(&self) -> &[u8] {
        &self.packed.selection[..self.packed.state[SELECTED] as usize]
    }

    /// Puts a selection back, as one that was kept from an earlier run. False, and nothing changed,
    /// where it has more bytes than any Set Select; what else is wrong with it a call says.
    pub fn set_selection(&mut self, parameters: &[u8]) -> bool {
        let Some(front) = self.packed.selection.get_mut(..parameters.len()) else {
            return false;
        };
        front.copy_from_slice(parameters);
        self.packed.state[SELECTED] = parameters.len() as u64;
        true
    }

    /// The numbers of the tags that may still be handed out: those of them that are present and
    /// match at their turn will be.
    pub fn to_hand_out(&self) -> Range<usize> {
        let tags = self.packed.places.len() / 2;
        let next = self.packed.state[NEXT].min(tags as u64);
        next as usize..tags
    }

    /// Hands out the tags from this number on; none where no tag has it.
    pub fn hand_out_from(&mut self, tag: usize) {
        self.packed.state[NEXT] = tag as u64;
    }

    pub fn cursor(&self) -> u64 {
        self.packed.state[CURSOR]
    }

    /// Where the next call looks at its input: 0 for a new one.
    pub fn set_cursor(&mut self, cursor: u64) {
        self.packed.state[CURSOR] = cursor;
    }

    pub fn tally(&self) -> Tally {
        let count = |n: u64| u32::try_from(n).expect("a count stays at most 4,294,967,295");
        let state = &self.packed.state;
        let mut dropped = [0; 5];
        for (to, from) in dropped.iter_mut().zip(&state[DROPPED]) {
            *to = count(*from);
        }
        Tally {
            good: count(state[COUNTS.start]),
            error: count(state[COUNTS.start + 1]),
            dropped,
        }
    }

    pub fn set_tally(&mut self, tally: Tally) {
        let state = &mut self.packed.state;
        state[COUNTS.start] = tally.good.into();
        state[COUNTS.start + 1] = tally.error.into();
        for (to, from) in state[DROPPED].iter_mut().zip(tally.dropped) {
            *to = from.into();
        }
    }
}

fn numbers_of(places: &[Place]) -> Vec<u64> {
    let both = |place: &Place| [place.from.into(), place.size.into()];
    places.iter().flat_map(both).collect()
}

/// The counts of a bench.
#[derive(Clone, Copy, Debug, Default, PartialEq, Eq)]
pub struct Tally {
    pub good: u32,
    pub error: u32,
    /// The dropped bytes, one count for each reason in their order.
    pub dropped: [u32; 5],
}

impl Tally {
    /// The bytes dropped for this reason.
    pub fn dropped_for(&self, reason: Reason) -> u32 {
        self.dropped[reason as usize - 1]
    }
}

#[cfg(test)]
mod tests;
