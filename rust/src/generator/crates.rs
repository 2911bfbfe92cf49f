//! Good crates of tags in one memory.

use super::images::{lock_bits, set_passwords};
use super::{double, good_image, offset_place, set_crc_word, set_double, words_place, Random};

/// The memory, and for each tag where its image starts there and its bytes.
#[derive(Clone, Debug, PartialEq, Eq)]
pub struct Tags {
    pub memory: Vec<u8>,
    pub places: Vec<(u64, u64)>,
}

/// A tag's image; nothing for a place that leaves the memory.
pub fn image_at(memory: &[u8], (from, size): (u64, u64)) -> &[u8] {
    let range = from as usize..from.saturating_add(size) as usize;
    memory.get(range).unwrap_or_default()
}

impl Tags {
    pub fn image(&self, tag: usize) -> &[u8] {
        image_at(&self.memory, self.places[tag])
    }

    /// Gives a tag another image: in its place, or behind all others if the length is another.
    pub fn replace(&mut self, tag: usize, image: &[u8]) {
        let (from, size) = self.places[tag];
        if image.len() as u64 == size {
            let start = from as usize;
            self.memory[start..start + image.len()].copy_from_slice(image);
        } else {
            self.places[tag] = (self.memory.len() as u64, image.len() as u64);
            self.memory.extend(image);
        }
    }
}

/// A good crate: any number of tags, in any order in the memory, with gaps around them. Most tags
/// are much like an earlier one, so that a selection may mean some and not others.
pub fn good_crate(random: &mut Random) -> Tags {
    let number = match random.below(10) {
        0 => 0,
        1..=3 => 1,
        4..=6 => random.between(2, 4),
        7 => random.between(5, 14),
        8 => 15,
        _ => 16,
    };
    let mut images: Vec<Vec<u8>> = Vec::new();
    for tag in 0..number {
        let image = if tag > 0 && random.percent(70) {
            let like = random.below(tag);
            relative(random, &images[like])
        } else {
            good_image(random)
        };
        images.push(image);
    }
    // else a large crate hardly ever has all its tags to hand out
    if random.percent(25) {
        images.iter_mut().for_each(|image| image[22] = 0);
    }
    placed(random, &images)
}

/// A tag like this one: another RSSI and state, up to three bits of EPC, TID or User changed, and now
/// and then other passwords and locks.
fn relative(random: &mut Random, image: &[u8]) -> Vec<u8> {
    let mut image = image.to_vec();
    image[22] = random.pick(&[0, 0, 0, 0, 0, 0, 1, 2]);
    image[23] = random.byte();
    for _ in 0..random.below(4) {
        let bank = random.between(1, 3);
        let bits = 16 * double(&image, words_place(bank));
        // the CRC word goes with the rest, and L stays
        let first = if bank == 1 { 21 } else { 0 };
        if bits > first {
            let bit = random.between(first, bits - 1);
            let start = double(&image, offset_place(bank));
            image[start + bit / 8] ^= 0x80 >> (bit % 8);
        }
    }
    set_crc_word(&mut image);
    if random.percent(30) {
        set_passwords(random, &mut image);
        set_double(&mut image, 20, lock_bits(random));
    }
    image
}

/// These images in a memory, in a random order, now and then with gaps of random bytes.
pub fn placed(random: &mut Random, images: &[Vec<u8>]) -> Tags {
    let mut order: Vec<usize> = (0..images.len()).collect();
    if random.percent(50) {
        for last in (1..order.len()).rev() {
            order.swap(last, random.below(last + 1));
        }
    }
    let mut tags = Tags {
        memory: Vec::new(),
        places: vec![(0, 0); images.len()],
    };
    for tag in order {
        let gap = random.pick(&[0, 0, 0, 1, 5]);
        tags.memory.extend(random.bytes(gap));
        tags.places[tag] = (tags.memory.len() as u64, images[tag].len() as u64);
        tags.memory.extend(&images[tag]);
    }
    let gap = random.pick(&[0, 0, 0, 1, 5]);
    tags.memory.extend(random.bytes(gap));
    tags
}
