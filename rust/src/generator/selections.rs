//! Selections: the parameters of a Set Select, taken or not.

use super::{double, offset_place, words_place, Random};

/// The parameters of a Set Select whose mask is taken from this tag, or nearly so.
pub fn select_parameters(random: &mut Random, image: &[u8]) -> Vec<u8> {
    let bank = random.between(1, 3);
    let (bytes, epc_end) = match image.get(..24) {
        Some(header) => {
            let start = double(header, offset_place(bank));
            let end = start + 2 * double(header, words_place(bank));
            let pc = image.get(double(header, offset_place(1)) + 2);
            let length = pc.map_or(0, |high| usize::from(high >> 3));
            (image.get(start..end).unwrap_or_default(), 32 + 16 * length)
        }
        None => (&[][..], 32),
    };
    let bits = match random.below(8) {
        0 => 0,
        1 => 1,
        2 => random.pick(&[7, 8, 9, 15, 16, 17]),
        3 => random.pick(&[96, 254, 255]),
        _ => random.below(65),
    };
    let pointer = bit_pointer(random, 8 * bytes.len(), epc_end, bits);
    let mut mask = bits_from(bytes, pointer, bits);
    poke_mask(random, &mut mask, bits);
    let turn = if random.percent(30) { 0x10 } else { 0 };
    let mut parameters = vec![turn | bank as u8];
    parameters.extend((pointer as u32).to_be_bytes());
    parameters.extend([bits as u8, 0]);
    parameters.extend(mask);
    if random.percent(15) {
        poke_select(random, &mut parameters);
    }
    parameters
}

/// Where a mask of so many bits starts: within the bank, about its end or the EPC's, or so far out
/// that a pointer cut to fewer bits would be within it.
fn bit_pointer(random: &mut Random, bank_bits: usize, epc_end: usize, bits: usize) -> usize {
    let last = bank_bits.saturating_sub(bits);
    match random.below(10) {
        0 | 1 => random.near(last),
        2 => random.near(bank_bits),
        3 => 32,
        4 => random.near(epc_end.saturating_sub(bits)),
        5 => random.near(epc_end),
        6 => random.below(last + 1) + random.pick(&[1 << 16, 1 << 24, 1 << 31]),
        7 => u32::MAX as usize - random.pick(&[0, 1, bits.saturating_sub(1), bits]),
        _ => random.below(last + 1),
    }
}

/// So many bits of a bank in whole bytes, one by one; 0 behind its end.
fn bits_from(bytes: &[u8], pointer: usize, bits: usize) -> Vec<u8> {
    let mut mask = vec![0; bits.div_ceil(8)];
    for bit in 0..bits {
        let at = pointer + bit;
        let set = bytes
            .get(at / 8)
            .is_some_and(|b| b >> (7 - at % 8) & 1 != 0);
        mask[bit / 8] |= u8::from(set) << (7 - bit % 8);
    }
    mask
}

/// Other spare bits, and one bit of the mask off: the first, the last, or any.
fn poke_mask(random: &mut Random, mask: &mut [u8], bits: usize) {
    if bits == 0 {
        return;
    }
    let used = bits % 8;
    if used > 0 && random.percent(60) {
        mask[bits / 8] ^= random.byte() & (0xFF >> used);
    }
    if random.percent(40) {
        let any = random.below(bits);
        let bit = random.pick(&[0, bits - 1, any]);
        mask[bit / 8] ^= 0x80 >> (bit % 8);
    }
}

/// Something that Set Select does not take.
fn poke_select(random: &mut Random, parameters: &mut Vec<u8>) {
    match random.below(9) {
        0 => parameters[0] &= 0x10,
        1 => parameters[0] |= random.pick(&[0x20, 0x40, 0x80, 0xE0]),
        2 => parameters[0] |= random.pick(&[0x04, 0x08, 0x0C]),
        3 => parameters[0] = random.byte(),
        4 => parameters[6] = random.pick(&[0x01, 0x80, 0xFF]),
        5 => parameters.push(0),
        6 => {
            parameters.pop();
        }
        7 => parameters[5] = parameters[5].wrapping_add(random.pick(&[1, 8, 248, 255])),
        _ => parameters.truncate(random.below(8)),
    }
}
