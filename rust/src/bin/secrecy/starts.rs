//! Where the two runs start: what both have, the passwords, and what a dropped premise sets apart.

use crate::premises::Dropped;
use poldrisk::beside::packed_of;
use poldrisk::generator::crates::{good_crate, Tags};
use poldrisk::generator::lists::records;
use poldrisk::generator::starts::{raw_next, selection};
use poldrisk::generator::{self, double, offset_place, set_crc_word, Random};
use poldrisk::model::Bench;
use poldrisk::packed::{Packed, HELD, NEXT, NONE_TO_HAND_OUT, RECORD_LENGTH, SELECTED};
use std::ops::Range;

/// A good crate with a tag at least.
pub fn some_tags(random: &mut Random) -> Tags {
    loop {
        let tags = good_crate(random);
        if !tags.places.is_empty() {
            return tags;
        }
    }
}

pub fn image_mut(tags: &mut Tags, tag: usize) -> &mut [u8] {
    let (from, size) = tags.places[tag];
    &mut tags.memory[from as usize..(from + size) as usize]
}

/// The place of a tag's eight password bytes in the memory.
pub fn passwords_at(tags: &Tags, tag: usize) -> Range<usize> {
    let start = tags.places[tag].0 as usize + double(tags.image(tag), offset_place(0));
    start..start + 8
}

/// Kill pair and access pair 10 or 11.
pub fn lock_passwords(random: &mut Random, image: &mut [u8]) {
    image[20] = random.pick(&[2, 3]);
    image[21] = random.pick(&[2, 3]) << 6 | image[21] & 0x3F;
}

pub fn unlock(random: &mut Random, image: &mut [u8], dropped: Dropped) {
    let free = random.pick(&[0, 1]);
    match dropped {
        Dropped::KillRegionUnlocked => image[20] = free,
        Dropped::AccessRegionUnlocked => image[21] = free << 6 | image[21] & 0x3F,
        _ => {}
    }
}

pub fn nonzero(random: &mut Random) -> [u8; 4] {
    (random.number() as u32 | 1 << random.below(32)).to_be_bytes()
}

/// Nonzero passwords for the hidden tags of one run. Some are those of other tags, or of the other run.
pub fn set_passwords(
    random: &mut Random,
    run: &mut Packed,
    places: &[Range<usize>],
    pool: &[[u8; 4]; 3],
) {
    for place in places {
        for at in [place.start, place.start + 4] {
            let password = match random.percent(40) {
                true => random.pick(pool),
                false => nonzero(random),
            };
            run.memory[at..at + 4].copy_from_slice(&password);
        }
    }
}

/// What is the same in both runs at the start: any output, selection, tags to hand out and counts, and the
/// room of an empty list.
pub fn start(random: &mut Random, tags: &Tags) -> Packed {
    let length = random.pick(&[136, 136, 136, 136, 136, 136, 200, 135]);
    let room = match random.below(20) {
        0 => 0,
        1..=3 => 1,
        4 | 5 => 2,
        6 => 3,
        _ => random.between(10, 60),
    };
    let [good, error, dropped @ ..] = generator::counts(random);
    let next = match random.percent(70) {
        true => NONE_TO_HAND_OUT,
        false => raw_next(random),
    };
    let bench = Bench {
        memory: tags.memory.clone(),
        places: tags.places.clone(),
        selection: good_selection(random, tags),
        next,
        output: random.bytes(length),
        good,
        error,
        dropped,
        records: records(random, room),
        ..Bench::of_tags(&[])
    };
    packed_of(&bench, &[0; 39])
}

/// A selection that a good crate may have, so that a difference is not merely that of a bad crate.
fn good_selection(random: &mut Random, tags: &Tags) -> Vec<u8> {
    loop {
        let mut bench = Bench {
            selection: selection(random, &tags.memory, &tags.places),
            ..Bench::of_tags(&[])
        };
        if bench.call(&[]) == 1 {
            return bench.selection;
        }
    }
}

/// Sets one run apart from the other by what the premises forbid.
pub fn set_apart(random: &mut Random, run: &mut Packed, tags: &Tags, tag: usize, dropped: Dropped) {
    let at = passwords_at(tags, tag).start;
    match dropped {
        Dropped::KillPasswordZero => run.memory[at..at + 4].fill(0),
        Dropped::AccessPasswordZero => run.memory[at + 4..at + 8].fill(0),
        // the PC's low bits are free; the CRC word goes with them
        Dropped::DifferElsewhere => {
            let (from, size) = tags.places[tag];
            let image = &mut run.memory[from as usize..(from + size) as usize];
            image[double(tags.image(tag), offset_place(1)) + 3] ^= 1;
            set_crc_word(image);
        }
        Dropped::OtherSelection => {
            let other = good_selection(random, tags);
            run.selection[..other.len()].copy_from_slice(&other);
            run.state[SELECTED] = other.len() as u64;
        }
        Dropped::OtherTagsToHandOut => run.state[NEXT] = raw_next(random),
        Dropped::OtherRoom => run.records.resize(RECORD_LENGTH * random.below(60), 0),
        Dropped::RecordsAtTheStart => {
            let room = run.records.len() / RECORD_LENGTH;
            run.state[HELD] = random.below(room + 1) as u64;
        }
        _ => {}
    }
}
