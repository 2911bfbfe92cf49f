//! Good images of tags.

use super::Random;
use crate::model::crc16;

/// Where the header has a bank's words and its offset.
pub fn words_place(bank: usize) -> usize {
    4 + 4 * bank
}

pub fn offset_place(bank: usize) -> usize {
    6 + 4 * bank
}

pub fn double(bytes: &[u8], at: usize) -> usize {
    usize::from(bytes[at]) * 256 + usize::from(bytes[at + 1])
}

pub fn set_double(bytes: &mut [u8], at: usize, value: usize) {
    bytes[at] = (value >> 8) as u8;
    bytes[at + 1] = value as u8;
}

/// The password at `at` (0 kill, 4 access) of the Reserved bank, if the image is long enough.
pub fn password(image: &[u8], at: usize) -> Option<[u8; 4]> {
    let header = image.get(..24)?;
    let start = double(header, offset_place(0)) + at;
    image.get(start..start + 4)?.try_into().ok()
}

/// The scope document's sample tag.
pub fn sample_image() -> Vec<u8> {
    let words: [u16; 12] = [1, 86, 4, 24, 8, 32, 3, 48, 16, 54, 0, 0x00C9];
    let epc: [u16; 8] = [
        0x3A76, 0x3400, 0x3075, 0x1FEB, 0x705C, 0x5904, 0xE3D5, 0x0D70,
    ];
    let mut image: Vec<u8> = words.iter().flat_map(|w| w.to_be_bytes()).collect();
    image.extend([0x00, 0x00, 0xFF, 0xFF, 0x00, 0x00, 0xFF, 0xFF]);
    image.extend(epc.iter().flat_map(|w| w.to_be_bytes()));
    image.extend([0; 6]);
    image.extend([0x12, 0x34, 0x56, 0x78]);
    image.resize(86, 0);
    image
}

/// The sample tag with another last EPC word.
pub fn sample_tag(last: usize) -> Vec<u8> {
    let mut image = sample_image();
    set_double(&mut image, 46, last);
    set_crc_word(&mut image);
    image
}

/// A good image of random layout, with gaps between the banks and behind the last.
pub fn good_image(random: &mut Random) -> Vec<u8> {
    let epc = pick_or_between(random, &[2, 3, 8, 33], 2, 33);
    let tid = pick_or_between(random, &[1, 2, 32], 1, 32);
    let user = pick_or_between(random, &[0, 1, 16, 32, 33, 512], 0, 64);
    laid_out(random, [4, epc, tid, user])
}

/// An image of which only one bank's count of words is at its bound or beyond it: the layout fits.
pub fn image_of_odd_words(random: &mut Random) -> Vec<u8> {
    let mut words = [4, 8, 3, 16];
    let bank = random.below(4);
    words[bank] = match bank {
        0 => random.pick(&[3, 5]),
        1 => random.pick(&[1, 2, 33, 34]),
        2 => random.pick(&[0, 1, 32, 33]),
        _ => random.pick(&[0, 512, 513]),
    };
    laid_out(random, words)
}

fn laid_out(random: &mut Random, words: [usize; 4]) -> Vec<u8> {
    let mut header = [0u8; 24];
    let mut end = 24;
    for (bank, count) in words.into_iter().enumerate() {
        let offset = end + gap(random);
        set_double(&mut header, words_place(bank), count);
        set_double(&mut header, offset_place(bank), offset);
        end = offset + 2 * count;
    }
    let total = if random.percent(5) {
        2048
    } else {
        end + gap(random)
    };
    set_double(&mut header, 0, 1);
    set_double(&mut header, 2, total);
    set_double(&mut header, 20, lock_bits(random));
    header[22] = random.pick(&[0, 0, 0, 0, 0, 0, 0, 0, 1, 2]);
    header[23] = random.byte();
    let mut image = random.bytes(total);
    image[..24].copy_from_slice(&header);
    set_passwords(random, &mut image);
    let most = words[1].saturating_sub(2).min(31);
    let length = if random.percent(30) {
        most
    } else {
        random.below(most + 1)
    };
    set_epc_length(&mut image, length);
    set_crc_word(&mut image);
    image
}

fn pick_or_between(random: &mut Random, of: &[usize], low: usize, high: usize) -> usize {
    if random.percent(40) {
        random.pick(of)
    } else {
        random.between(low, high)
    }
}

fn gap(random: &mut Random) -> usize {
    random.pick(&[0, 0, 0, 1, 2, 7])
}

/// Ten lock bits: all free, all of one kind, or any.
pub(super) fn lock_bits(random: &mut Random) -> usize {
    match random.below(4) {
        0 => 0,
        1 => 0x155 * random.below(4),
        _ => random.below(1024),
    }
}

pub(super) fn set_passwords(random: &mut Random, image: &mut [u8]) {
    let start = double(image, offset_place(0));
    for at in [start, start + 4] {
        match random.below(4) {
            0 => image[at..at + 4].fill(0),
            // a single byte is not zero, so that a comparison of fewer bytes is seen
            1 => {
                image[at..at + 4].fill(0);
                image[at + random.below(4)] = 1;
            }
            _ => {}
        }
    }
}

fn set_epc_length(image: &mut [u8], length: usize) {
    let pc = double(image, offset_place(1)) + 2;
    image[pc] = (length as u8) << 3 | image[pc] & 7;
}

/// The PC's top five bits.
pub(super) fn epc_length(image: &[u8]) -> Option<usize> {
    let pc = double(image.get(..24)?, offset_place(1)) + 2;
    image.get(pc).map(|high| usize::from(high >> 3))
}

/// Makes EPC word 0 the CRC-16 of PC and EPC, as far as these are in the image.
pub fn set_crc_word(image: &mut [u8]) {
    let Some(length) = epc_length(image) else {
        return;
    };
    let start = double(image, offset_place(1));
    if let Some(protected) = image.get(start + 2..start + 4 + 2 * length) {
        let crc = crc16(protected);
        set_double(image, start, usize::from(crc));
    }
}
