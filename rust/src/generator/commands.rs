//! Commands for one tag.

use super::images::epc_length;
use super::{double, offset_place, password, set_double, words_place, Random};

/// A whole frame with the right check.
pub fn frame(code: u8, parameters: &[u8]) -> Vec<u8> {
    let n = parameters.len();
    let mut bytes = vec![0xBB, 0x00, code, (n >> 8) as u8, n as u8];
    bytes.extend(parameters);
    bytes.extend([0, 0x7E]);
    set_check(&mut bytes);
    bytes
}

/// Puts the right check in its place, before the last byte of a frame.
pub(super) fn set_check(bytes: &mut [u8]) {
    let at = bytes.len() - 2;
    bytes[at] = bytes[1..at].iter().fold(0, |s, b| s.wrapping_add(*b));
}

/// The passwords that commands carry besides the stored ones.
fn some_password(random: &mut Random, image: &[u8], stored: usize) -> [u8; 4] {
    let right = password(image, stored).unwrap_or([0; 4]);
    match random.below(10) {
        0..=4 => right,
        5 | 6 => [0; 4],
        7 => password(image, 4 - stored).unwrap_or([1; 4]),
        8 => {
            // one bit off
            let mut wrong = right;
            wrong[random.below(4)] ^= 1 << random.below(8);
            wrong
        }
        _ => (random.number() as u32).to_be_bytes(),
    }
}

/// Password, bank, pointer and count of a Read or a Write, near the bounds of the bank.
fn aim(random: &mut Random, image: &[u8]) -> (Vec<u8>, usize, usize, usize) {
    let mut parameters = some_password(random, image, 4).to_vec();
    let bank = match random.below(20) {
        0 => 4,
        1 => 255,
        n => n % 4,
    };
    let words = match image.get(..24) {
        Some(header) if bank < 4 => double(header, words_place(bank)),
        _ => 4,
    };
    let count = match random.below(10) {
        0 => random.pick(&[0, 1, 2, 31, 32, 33, 34, 35]),
        1 => words.clamp(1, 32),
        2 => random.pick(&[256, 257, 65535]),
        _ => random.between(1, words.clamp(1, 32)),
    };
    let pointer = match random.below(10) {
        0 => 65535,
        1 => random.below(65536),
        2..=4 => random.near(words.saturating_sub(count)),
        5 => random.below(4),
        _ => random.below(words.saturating_sub(count) + 1),
    };
    parameters.push(bank as u8);
    parameters.extend((pointer as u16).to_be_bytes());
    parameters.extend((count as u16).to_be_bytes());
    (parameters, bank, pointer, count)
}

fn write_parameters(random: &mut Random, image: &[u8]) -> Vec<u8> {
    if image.len() >= 24 && random.percent(25) {
        return epc_write_parameters(random, image);
    }
    let (mut parameters, bank, pointer, count) = aim(random, image);
    let mut data = random.bytes((2 * count).min(71));
    if bank == 1 && random.percent(80) {
        set_new_length(random, image, pointer, &mut data);
    }
    parameters.extend(data);
    parameters
}

/// A Write to the EPC bank: from the CRC word or the PC on, or one that ends or starts about where
/// the EPC ends.
fn epc_write_parameters(random: &mut Random, image: &[u8]) -> Vec<u8> {
    let mut parameters = some_password(random, image, 4).to_vec();
    let epc_end = 2 + epc_length(image).unwrap_or(0);
    let (pointer, count) = match random.below(8) {
        0 => (0, random.between(1, epc_end)),
        1..=3 => (1, random.between(1, epc_end)),
        4 | 5 => {
            let end = random.near(epc_end);
            let count = random.between(1, end);
            (end - count, count)
        }
        _ => (random.near(epc_end), random.pick(&[1, 1, 2, 3])),
    };
    let count = count.min(32);
    let mut data = random.bytes(2 * count);
    set_new_length(random, image, pointer, &mut data);
    if pointer == 0 && random.percent(50) {
        // what stands there already is refused just as well
        let start = double(image, offset_place(1));
        if let Some(same) = image.get(start..start + 2 * count) {
            data.copy_from_slice(same);
        }
    }
    parameters.push(1);
    parameters.extend((pointer as u16).to_be_bytes());
    parameters.extend((count as u16).to_be_bytes());
    parameters.extend(data);
    parameters
}

/// Where the data have a new PC, its L at the bound of the bank, at the old L, beside these, or
/// anywhere between.
fn set_new_length(random: &mut Random, image: &[u8], pointer: usize, data: &mut [u8]) {
    let (Some(old), Some(header)) = (epc_length(image), image.get(..24)) else {
        return;
    };
    let most = double(header, words_place(1)).saturating_sub(2);
    let length = match random.below(4) {
        0 | 1 => random.near(most),
        2 => random.near(old),
        _ => random.below(most + 1),
    };
    if pointer <= 1 && 2 * (1 - pointer) < data.len() {
        let place = 2 * (1 - pointer);
        data[place] = (length.min(31) as u8) << 3 | data[place] & 7;
    }
}

fn lock_parameters(random: &mut Random, image: &[u8]) -> Vec<u8> {
    let mut parameters = some_password(random, image, 4).to_vec();
    let old = match image.get(..24) {
        Some(header) => double(header, 20),
        None => 0,
    };
    let mask = match random.below(5) {
        0 => 0x3FF,
        1 => 3 << (2 * random.below(5)),
        2 => 1 << random.below(10),
        3 => 0x3FC,
        _ => random.below(1024),
    };
    let action = match random.below(4) {
        0 => old & 0x3FF,
        1 => (old & 0x3FF) ^ (1 << random.below(10)),
        _ => random.below(1024),
    };
    let mut ld = mask << 10 | action;
    if random.percent(5) {
        ld |= 1 << random.between(20, 23);
    }
    parameters.extend(&(ld as u32).to_be_bytes()[1..]);
    parameters
}

/// Draws a tag's lock bits anew, and a Lock for them with the right password. It asks anything of
/// one region: alone, beside another whose pair changes, or beside another that refuses.
pub fn lock_anew(random: &mut Random, image: &mut [u8]) -> Vec<u8> {
    let region = random.below(5);
    let mut old = random.below(1024);
    let mut mask = random.below(4) << (2 * region);
    let mut action = random.below(1024);
    if random.percent(67) {
        let other = 2 * ((region + random.between(1, 4)) % 5);
        old = old & !(1 << other) | random.below(2) << other;
        mask |= random.between(1, 3) << other;
        // every masked bit differs: a permalocked pair refuses that, another changes
        action = action & !(3 << other) | !old & 3 << other;
    }
    set_double(image, 20, old);
    let mut parameters = password(image, 4).unwrap_or_default().to_vec();
    parameters.extend(&((mask << 10 | action) as u32).to_be_bytes()[1..]);
    frame(0x82, &parameters)
}

/// A command's code and parameters, well made or of a wrong length.
pub fn command(random: &mut Random, image: &[u8]) -> (u8, Vec<u8>) {
    let (code, mut parameters) = match random.below(24) {
        0..=3 => (0x22, Vec::new()),
        4..=9 => (0x39, aim(random, image).0),
        10..=15 => (0x49, write_parameters(random, image)),
        16..=20 => (0x82, lock_parameters(random, image)),
        21 | 22 => (0x65, some_password(random, image, 0).to_vec()),
        _ => {
            let n = random.pick(&[0, 1, 4, 9, 80]);
            let code = random.pick(&[0x00, 0x21, 0x23, 0x77, 0xBB, 0xFF, 0x38, 0x83]);
            (code, random.bytes(n))
        }
    };
    if random.percent(8) {
        let n = parameters.len();
        let length = random.pick(&[0, 3, 4, 8, 80, n + 1, n + 2, n.saturating_sub(1)]);
        parameters.resize(length, 0);
    }
    parameters.truncate(80);
    (code, parameters)
}
