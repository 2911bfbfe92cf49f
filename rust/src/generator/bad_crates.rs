//! Crates at the bounds of the crate's rules, and beyond them.

use super::crates::Tags;
use super::{good_image, image_of_odd_words, poke_image, set_double, Random};

/// Moves one rule of a good crate to its bound or beyond it. Where it can be, each image by itself
/// stays good, so that the crate's own rule is the one that is broken.
pub fn poke_crate(random: &mut Random, tags: &mut Tags) {
    if tags.places.is_empty() {
        return too_many(random, tags);
    }
    let tag = random.below(tags.places.len());
    match random.below(16) {
        0 => too_many(random, tags),
        1 => tags.places[tag].1 = random.near(tags.places[tag].1 as usize) as u64,
        2 => tags.places[tag].0 = random.near(tags.places[tag].0 as usize) as u64,
        3 => {
            // the last place reaches the end of the memory, or one byte over it
            let end = tags.places.iter().map(|(from, size)| from + size).max();
            tags.memory
                .truncate(end.unwrap_or(0) as usize - random.below(2));
        }
        4 => tags.places[tag] = far_place(random, tags.places[tag]),
        5 => {
            // the same place for two
            let other = random.below(tags.places.len());
            tags.places[tag] = tags.places[other];
        }
        6 => overlap(random, tags),
        7 => nest(random, tags),
        8 => tags.places[tag].1 = random.pick(&[0, 1, 23, 24]),
        9 | 10 => tags.replace(tag, &image_of_odd_words(random)),
        _ => {
            let mut image = tags.image(tag).to_vec();
            poke_image(random, &mut image);
            tags.replace(tag, &image);
        }
    }
}

/// Seventeen good tags, or just sixteen. What stands behind the sixteenth place does not matter.
fn too_many(random: &mut Random, tags: &mut Tags) {
    let number = random.pick(&[16, 17, 17, 17, 18]);
    while tags.places.len() < number {
        let image = good_image(random);
        tags.places.push((0, 0));
        tags.replace(tags.places.len() - 1, &image);
    }
    if random.percent(25) {
        tags.places[16..].fill((u64::MAX, 1 << 32));
    }
}

/// A place that starts or ends so far out that a sum may wrap, in 32 bits; now and then with a number
/// that has more bits than these.
fn far_place(random: &mut Random, (from, size): (u64, u64)) -> (u64, u64) {
    let top = 1 << 32;
    match random.below(9) {
        // the end comes to 0 or just not to a wrap; the start is the last number
        0 => (top - size, size),
        1 => (top - size - 1, size),
        2 => (top - 1, size),
        // the end comes to the start itself, to just before it, or behind what lies before it
        3 => (from, top - 1),
        4 => (from, top - 1 - random.below(3) as u64),
        5 => (from, top - from - random.below(2) as u64),
        // cut to 32 bits it would be right
        6 => (from + top, size),
        7 => (from, size + top),
        _ => (u64::MAX - random.below(2) as u64, size),
    }
}

/// Two tags of which one starts in the bytes behind the other's last bank, or just behind these:
/// both images are good whether their places overlap or not.
fn overlap(random: &mut Random, tags: &mut Tags) {
    let number = tags.places.len();
    let (one, two) = (random.below(number), random.below(number));
    let mut longer = tags.image(one).to_vec();
    let spare = random.between(1, 8);
    let total = longer.len() + spare;
    if one == two || total > 2048 {
        return;
    }
    longer.resize(total, 0);
    set_double(&mut longer, 2, total);
    let second = tags.image(two).to_vec();
    tags.replace(one, &longer);
    // how many bytes both have
    let shared = random.pick(&[0, 1, spare]);
    tags.memory.truncate(tags.memory.len() - shared);
    let from = tags.memory.len();
    tags.memory.extend(&second);
    tags.places[two] = (from as u64, second.len() as u64);
}

/// Two tags of which one lies whole in the bytes behind the other's last bank: both images are good.
fn nest(random: &mut Random, tags: &mut Tags) {
    let number = tags.places.len();
    let (one, two) = (random.below(number), random.below(number));
    let inner = tags.image(two).to_vec();
    let mut outer = tags.image(one).to_vec();
    let start = outer.len() + random.below(4);
    let total = start + inner.len() + random.below(4);
    if one == two || total > 2048 {
        return;
    }
    outer.resize(start, 0);
    outer.extend(&inner);
    outer.resize(total, 0);
    set_double(&mut outer, 2, total);
    tags.replace(one, &outer);
    let from = tags.places[one].0 + start as u64;
    tags.places[two] = (from, inner.len() as u64);
}
