//! Where a run starts, and inputs for the tags that it has.

use super::bad_crates::poke_crate;
use super::crates::{good_crate, image_at, placed, Tags};
use super::inputs::input_of;
use super::lists::list;
use super::selections::select_parameters;
use super::{command, counts, good_image, image_of_odd_words, input, poke_image, Random};
use crate::model::Bench;
use crate::packed::NONE_TO_HAND_OUT;

/// A command for some tag of the crate, mostly the lowest present one. Inventory and Set Select come
/// more often than for one tag.
fn crate_command(random: &mut Random, memory: &[u8], places: &[(u64, u64)]) -> (u8, Vec<u8>) {
    let image_of = |tag: usize| places.get(tag).map_or(&[][..], |p| image_at(memory, *p));
    let lowest = (0..places.len()).find(|tag| image_of(*tag).get(22) == Some(&0));
    let image = match lowest {
        Some(tag) if random.percent(60) => image_of(tag),
        _ => image_of(random.below(places.len().max(1))),
    };
    match random.below(12) {
        0 | 1 => (0x22, Vec::new()),
        2 | 3 => (0x0C, select_parameters(random, image)),
        _ => command(random, image),
    }
}

/// Input bytes with commands for the tags of this crate. With a single tag they are mostly those of
/// one tag alone, so that every rule of a command is reached as often as in a bench for one tag.
pub fn crate_input(random: &mut Random, memory: &[u8], places: &[(u64, u64)]) -> Vec<u8> {
    match places {
        [place] if random.percent(80) => input(random, image_at(memory, *place)),
        _ => input_of(random, |random| crate_command(random, memory, places)),
    }
}

/// A selection in the state: none yet, one that Set Select takes, or now and then another.
pub fn selection(random: &mut Random, memory: &[u8], places: &[(u64, u64)]) -> Vec<u8> {
    if random.percent(50) {
        return Vec::new();
    }
    let image = match places.len() {
        0 => &[],
        tags => image_at(memory, places[random.below(tags)]),
    };
    select_parameters(random, image)
}

/// A number to go on from that any caller may set: the numbers of tags, those behind them, and far ones
/// of which a few bits alone would be a tag's.
pub fn raw_next(random: &mut Random) -> u64 {
    match random.below(8) {
        0 => random.pick(&[NONE_TO_HAND_OUT + 1, 31, 32, 255, 256, 1 << 16]),
        1 => random.pick(&[1 << 32, 1 << 63, u64::MAX - 1, u64::MAX]),
        2 => 0,
        3 => 1,
        _ => random.below(17) as u64,
    }
}

/// A start: mostly one that lets calls through, else with one thing at a bound. In two of five the
/// crate has a single tag.
pub fn start(random: &mut Random) -> Bench {
    let alone = random.percent(40);
    let tags = if alone {
        one_tag(random)
    } else {
        some_tags(random)
    };
    let selection = if alone && random.percent(70) {
        Vec::new()
    } else {
        selection(random, &tags.memory, &tags.places)
    };
    let next = if random.percent(60) {
        NONE_TO_HAND_OUT
    } else {
        raw_next(random)
    };
    let (records, held) = list(random);
    let [good, error, dropped @ ..] = counts(random);
    Bench {
        selection,
        next,
        memory: tags.memory,
        places: tags.places,
        output: output(random),
        good,
        error,
        dropped,
        records,
        held,
        // what stands there before a call is not looked at
        length: random.number(),
        reason: random.pick(&[0, 1, 5, 6, u64::MAX]),
        ..Bench::of_tags(&[])
    }
}

/// An output, now and then too short.
fn output(random: &mut Random) -> Vec<u8> {
    let length = if random.percent(4) {
        random.pick(&[0, 1, 23, 135])
    } else {
        random.pick(&[136, 136, 136, 136, 136, 137, 300])
    };
    random.bytes(length)
}

/// A crate of one tag, good or with one rule of its image at a bound.
fn one_tag(random: &mut Random) -> Tags {
    let mut image = good_image(random);
    if random.percent(20) {
        poke_image(random, &mut image);
    } else if random.percent(5) {
        image = image_of_odd_words(random);
    }
    placed(random, &[image])
}

/// Any crate, good or with one of its rules at a bound.
fn some_tags(random: &mut Random) -> Tags {
    let mut tags = good_crate(random);
    if random.percent(25) {
        poke_crate(random, &mut tags);
    }
    tags
}
