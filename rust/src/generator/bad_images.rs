//! Images at the bounds of an image's rules, and beyond them.

use super::images::epc_length;
use super::{double, offset_place, set_crc_word, set_double, words_place, Random};

/// Moves one rule of a good image to its bound or one beside it. The CRC word is put right for what
/// then stands there, so that an image breaks that rule alone, or none.
pub fn poke_image(random: &mut Random, image: &mut Vec<u8>) {
    if image.len() < 24 {
        return;
    }
    if random.percent(10) {
        poke_crc(random, image);
    } else {
        poke_layout(random, image);
        set_crc_word(image);
    }
}

/// One bit off: mostly in the CRC word itself, else in the PC or the EPC that it is made of.
fn poke_crc(random: &mut Random, image: &mut [u8]) {
    let Some(length) = epc_length(image) else {
        return;
    };
    let bytes = if random.percent(60) {
        2
    } else {
        4 + 2 * length
    };
    let at = double(image, offset_place(1)) + random.below(bytes);
    if at < image.len() {
        image[at] ^= 1 << random.below(8);
    }
}

fn poke_layout(random: &mut Random, image: &mut Vec<u8>) {
    match random.below(12) {
        0 => image.truncate(random.below(25)),
        1 => set_double(image, 0, random.pick(&[0, 1, 2, 257])),
        2 => {
            let total = random.near(image.len());
            set_double(image, 2, total);
        }
        3 => {
            let length = random.pick(&[2047, 2048, 2049]);
            image.resize(length, 0);
            set_double(image, 2, length);
        }
        4 => poke_words(random, image),
        5..=7 => poke_offset(random, image),
        8 => image[20] = random.pick(&[3, 4, 8, 128]),
        9 => image[22] = random.pick(&[0, 1, 2, 3, 255]),
        10 => poke_epc_length(random, image),
        _ => {
            let length = random.near(image.len());
            image.resize(length, 0);
        }
    }
}

fn poke_words(random: &mut Random, image: &mut [u8]) {
    let bank = random.below(4);
    let bounds: &[usize] = match bank {
        0 => &[3, 4, 5, 260],
        1 => &[0, 1, 2, 33, 34, 65535],
        2 => &[0, 1, 32, 33, 65535],
        _ => &[0, 511, 512, 513, 65535],
    };
    set_double(image, words_place(bank), random.pick(bounds));
}

fn poke_offset(random: &mut Random, image: &mut Vec<u8>) {
    // bank 4 is the end of the image
    let bank = random.below(5);
    let end_before = match bank {
        0 => 24,
        _ => double(image, offset_place(bank - 1)) + 2 * double(image, words_place(bank - 1)),
    };
    let place = random.near(end_before);
    if bank < 4 {
        let place = if random.percent(10) { 65535 } else { place };
        set_double(image, offset_place(bank), place);
    } else if (24..=2048).contains(&place) {
        image.resize(place, 0);
        set_double(image, 2, place);
    }
}

fn poke_epc_length(random: &mut Random, image: &mut [u8]) {
    let most = double(image, words_place(1)).saturating_sub(2);
    let pc = double(image, offset_place(1)) + 2;
    let length = random.near(most).min(31);
    if pc < image.len() {
        image[pc] = (length as u8) << 3 | image[pc] & 7;
    }
}
