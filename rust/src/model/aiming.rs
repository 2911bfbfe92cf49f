//! Which tag a command is for, and which is handed out next.

use super::answers::Answer;
use super::image::{crc_word, is_present, pc_and_epc};
use super::{selection, Bench};
use std::ops::Range;

impl Bench {
    /// The bytes of the memory that a tag has, in a crate whose places are good.
    fn range(&self, tag: usize) -> Range<usize> {
        let (from, size) = self.places[tag];
        from as usize..(from + size) as usize
    }

    pub(super) fn image(&self, tag: usize) -> &[u8] {
        &self.memory[self.range(tag)]
    }

    /// The lowest number of a tag from `first` on that is present and matches the selection.
    fn lowest(&self, first: usize) -> Option<usize> {
        (first..self.places.len()).find(|tag| {
            let image = self.image(*tag);
            if !is_present(image) {
                hit!(TAG_NOT_PRESENT);
                return false;
            }
            if !selection::matches(&self.selection, image) {
                hit!(TAG_NOT_MATCHING);
                return false;
            }
            true
        })
    }

    /// The tag that a command is for: "the lowest-numbered present tag that matches". It "holds for
    /// inventory too".
    pub(super) fn aim(&self) -> Option<usize> {
        let tag = self.lowest(0);
        match tag {
            Some(0) => hit!(TAG_FIRST),
            Some(_) => hit!(TAG_LATER),
            None => hit!(TAG_NONE),
        }
        tag
    }

    /// The tag that a command would be for, asked from outside; none in a bad crate.
    pub fn aimed(&self) -> Option<usize> {
        self.is_crate_good().then(|| self.aim()).flatten()
    }

    /// That tag's image, for a command that may change it.
    pub(super) fn target(&mut self) -> Option<&mut [u8]> {
        let range = self.range(self.aim()?);
        Some(&mut self.memory[range])
    }

    /// "one no longer present and matching at its turn is passed over"
    pub(super) fn tag_to_hand_out(&self) -> Option<usize> {
        if self.next >= self.places.len() as u64 {
            hit!(HAND_OUT_NONE);
            return None;
        }
        let tag = self.lowest(self.next as usize);
        match tag {
            Some(tag) if tag as u64 == self.next => hit!(HAND_OUT_NEXT),
            Some(_) => hit!(HAND_OUT_PASSING_OVER),
            None => hit!(HAND_OUT_ALL_PASSED_OVER),
        }
        tag
    }

    /// "type 02, code 22: RSSI, PC, EPC, CRC-16 of PC and EPC"; "inventory sends the stored word".
    /// The tags behind this one are then still to come.
    pub(super) fn hand_out(&mut self, tag: usize) -> Answer {
        self.next = tag as u64 + 1;
        let image = self.image(tag);
        Answer::new(2, 0x22)
            .byte(image[23])
            .bytes(pc_and_epc(image))
            .bytes(&crc_word(image))
    }
}
