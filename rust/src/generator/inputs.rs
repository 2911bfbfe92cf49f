//! Input bytes, and the counts that a run starts with.

use super::commands::set_check;
use super::{command, frame, set_double, Random};
use crate::packed::LIMIT;

/// Seven counts, now and then one of them, or all, near the limit or beyond it.
pub fn counts(random: &mut Random) -> [u64; 7] {
    let mut counts = [0; 7].map(|_: u64| random.number() % 1000);
    let near_full = [LIMIT - 2, LIMIT - 1, LIMIT - 1, LIMIT, LIMIT + 1, u64::MAX];
    if random.percent(15) {
        counts[random.below(7)] = random.pick(&near_full);
    } else if random.percent(2) {
        counts = [LIMIT - 1; 7];
    }
    counts
}

/// Input bytes with commands for this tag.
pub fn input(random: &mut Random, image: &[u8]) -> Vec<u8> {
    input_of(random, |random| command(random, image))
}

/// Input bytes: frames, damaged frames and noise, and now and then a cut at the end.
pub(super) fn input_of(
    random: &mut Random,
    mut command: impl FnMut(&mut Random) -> (u8, Vec<u8>),
) -> Vec<u8> {
    let mut next_frame = |random: &mut Random| {
        let (code, parameters) = command(random);
        frame(code, &parameters)
    };
    let mut bytes = Vec::new();
    for _ in 0..random.between(1, 5) {
        match random.below(20) {
            0 | 1 => {
                let n = random.below(12);
                bytes.extend(random.bytes(n));
            }
            2 | 3 => bytes.extend(noise(random)),
            4..=6 => {
                let whole = next_frame(random);
                bytes.extend(damaged(random, whole));
            }
            _ => bytes.extend(next_frame(random)),
        }
    }
    if random.percent(15) {
        let mut last = next_frame(random);
        if random.percent(30) {
            last = damaged(random, last);
        }
        last.truncate(random.below(last.len() + 1));
        bytes.extend(last);
    }
    bytes
}

/// Bytes that the finding rules look at: headers, types and short lengths in any order.
fn noise(random: &mut Random) -> Vec<u8> {
    let n = random.between(1, 30);
    (0..n)
        .map(|_| random.pick(&[0xBB, 0xBB, 0x00, 0x00, 0x01, 0x05, 0x50, 0x51, 0x7E, 0x22]))
        .collect()
}

/// A frame with something wrong. Each reason to drop its header comes alone and together with later
/// ones, so that their order shows.
pub fn damaged(random: &mut Random, mut bytes: Vec<u8>) -> Vec<u8> {
    match random.below(12) {
        0 => wrong_check(random, &mut bytes),
        1 => wrong_end(random, &mut bytes),
        2 => {
            wrong_check(random, &mut bytes);
            wrong_end(random, &mut bytes);
        }
        3 | 4 => wrong_type(random, &mut bytes),
        5 | 6 => bytes = too_long(random, bytes[2]),
        7 => {
            bytes = too_long(random, bytes[2]);
            wrong_type(random, &mut bytes);
        }
        8 => bytes.truncate(random.below(bytes.len())),
        9 => {
            let at = random.below(bytes.len());
            bytes[at] = random.byte();
        }
        10 => bytes = behind_a_start(random, &bytes),
        // a damaged frame that is not all there
        _ => {
            bytes = damaged(random, bytes);
            bytes.truncate(random.below(12));
        }
    }
    bytes
}

fn wrong_check(random: &mut Random, bytes: &mut [u8]) {
    let at = bytes.len() - 2;
    bytes[at] = bytes[at].wrapping_add(random.pick(&[1, 2, 128, 255]));
}

fn wrong_end(random: &mut Random, bytes: &mut [u8]) {
    let at = bytes.len() - 1;
    bytes[at] = random.pick(&[0x7D, 0x7F, 0x00, 0xBB]);
}

/// A response, a notification or another type, with the check that suits it or the old one.
fn wrong_type(random: &mut Random, bytes: &mut [u8]) {
    bytes[1] = random.pick(&[1, 1, 2, 2, 3, 128, 255, 0xBB]);
    if random.percent(50) {
        set_check(bytes);
    }
    if random.percent(20) {
        wrong_end(random, bytes);
    }
}

/// A frame with PL above 80, or just 80: its first bytes alone, also with a far larger PL, or the whole
/// of it with a right or a wrong close.
fn too_long(random: &mut Random, code: u8) -> Vec<u8> {
    let length = random.pick(&[80, 81, 81, 81, 82]);
    let parameters = random.bytes(length);
    let mut bytes = frame(code, &parameters);
    match random.below(8) {
        0 => {}
        1 => wrong_check(random, &mut bytes),
        2 => wrong_end(random, &mut bytes),
        3 | 4 => bytes.truncate(random.between(7, 12)),
        _ => {
            // of some the low byte alone would be 80 or less
            let pl = random.pick(&[255, 256, 260, 336, 32768, 65535]);
            set_double(&mut bytes, 3, pl);
            bytes.truncate(random.between(7, 12));
        }
    }
    bytes
}

/// A frame whose first bytes look like another one's start.
fn behind_a_start(random: &mut Random, bytes: &[u8]) -> Vec<u8> {
    let code = random.byte();
    let pl = random.pick(&[0, 5, 40, 80, 81]);
    let mut all = vec![0xBB, 0x00, code, 0x00, pl];
    all.truncate(random.between(1, 5));
    all.extend(bytes);
    all
}
