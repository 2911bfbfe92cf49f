//! What makes a crate good.

use super::image::is_good;
use super::selection::{self, Fault};
use super::{Bench, MOST_TAGS};

impl Bench {
    /// "more tags, places that overlap or leave the memory, a bad image, or a selection that is
    /// neither empty nor one that Set Select takes, make it bad (11)"
    pub(super) fn is_crate_good(&self) -> bool {
        match self.places.len() {
            0 => hit!(TAGS_0),
            1 => hit!(TAGS_1),
            2..MOST_TAGS => hit!(TAGS_SEVERAL),
            MOST_TAGS => hit!(TAGS_16),
            _ => {
                hit!(TAGS_TOO_MANY);
                return false;
            }
        }
        are_places_good(&self.places, self.memory.len() as u64)
            && self.are_images_good()
            && is_selection_good(&self.selection)
    }

    fn are_images_good(&self) -> bool {
        for tag in 0..self.places.len() {
            if !is_good(self.image(tag)) {
                if tag == 0 {
                    hit!(FIRST_IMAGE_BAD);
                } else {
                    hit!(LATER_IMAGE_BAD);
                }
                return false;
            }
        }
        true
    }
}

/// Whether no place leaves the memory and no two overlap, whatever their order in it.
fn are_places_good(places: &[(u64, u64)], memory: u64) -> bool {
    for (tag, (from, size)) in places.iter().enumerate() {
        // no memory is so long that a sum at the top would lie in it
        let end = from.saturating_add(*size);
        if end > memory {
            if end > u64::from(u32::MAX) {
                hit!(PLACE_ABOVE_32_BITS);
            } else {
                hit!(PLACE_LEAVES);
            }
            return false;
        }
        if end == memory {
            hit!(PLACE_TO_THE_END);
        }
        // those before it are within the memory, so their ends do not wrap
        let earlier = &places[..tag];
        let overlapping = |(f, s): &(u64, u64)| *f < end && *from < f + s;
        if let Some(other) = earlier.iter().position(overlapping) {
            if other + 1 == tag {
                hit!(PLACES_OVERLAP_NEXT);
            } else {
                hit!(PLACES_OVERLAP_APART);
            }
            return false;
        }
    }
    true
}

/// "a selection that is neither empty nor one that Set Select takes"
fn is_selection_good(selection: &[u8]) -> bool {
    if selection.is_empty() {
        hit!(SELECTION_EMPTY);
        return true;
    }
    let Some(fault) = selection::fault(selection) else {
        hit!(SELECTION_GOOD);
        return true;
    };
    match fault {
        Fault::TooShort => hit!(SELECTION_TOO_SHORT),
        Fault::Target => hit!(SELECTION_TARGET),
        Fault::Action => hit!(SELECTION_ACTION),
        Fault::Reserved => hit!(SELECTION_RESERVED),
        Fault::Truncate => hit!(SELECTION_TRUNCATE),
        Fault::MaskTooShort => hit!(SELECTION_MASK_SHORT),
        Fault::MaskTooLong => hit!(SELECTION_MASK_LONG),
    }
    false
}
