//! Lists of failures, and how many of them are acknowledged.

use super::Random;
use crate::model::Record;

/// A list and how many records it holds: mostly with room to spare, else with none, or with one to
/// three places and any of them taken, or with more held than it has room for.
pub fn list(random: &mut Random) -> (Vec<Record>, u64) {
    let room = match random.below(20) {
        0 => 0,
        1 | 2 => 1,
        3 | 4 => 2,
        5 => 3,
        _ => random.between(30, 90),
    };
    let held = match random.below(20) {
        0 => held_above(random, room),
        1 => room as u64,
        2 => room.saturating_sub(1) as u64,
        3..=8 => random.below(room + 1) as u64,
        _ => 0,
    };
    (records(random, room), held)
}

/// A list's whole room, with any numbers in it.
pub fn records(random: &mut Random, room: usize) -> Vec<Record> {
    let mut number = || match random.below(4) {
        0 => random.pick(&[0, 1, 255, 1 << 32, u64::MAX]),
        _ => random.number(),
    };
    let mut record = || Record {
        cursor: number(),
        cause: number(),
        error: number(),
    };
    (0..room).map(|_| record()).collect()
}

/// More records than a list of so much room can hold; some of these numbers would do if they were cut.
pub fn held_above(random: &mut Random, room: usize) -> u64 {
    let within = random.below(room + 1) as u64;
    let room = room as u64;
    random.pick(&[
        room + 1,
        room + 1,
        room + 2,
        (1 << 32) + within,
        (1 << 63) + within,
        u64::MAX - 1,
        u64::MAX,
    ])
}

/// How many of so many records are acknowledged: none, some, all, or too many.
pub fn acknowledged(random: &mut Random, held: u64) -> u64 {
    let some = random.number() % held.saturating_add(1);
    match random.below(12) {
        0 | 1 => 0,
        2 => held.saturating_add(1),
        3 => random.pick(&[some.saturating_add(1 << 32), 1 << 63, u64::MAX]),
        4..=6 => held,
        7 => held.min(1),
        8 => held.saturating_sub(1),
        _ => some,
    }
}
