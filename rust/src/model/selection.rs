//! What Set Select takes, and which tags its mask matches. A selection is kept as the parameters of
//! the Set Select that made it; before the first one it is empty.

use super::image::{epc_length, offset_of, words_of};
use super::{EPC, TID};

/// "SelParam", "bit pointer, mask length in bits, truncate 0", and then "the mask in whole bytes"
const BEFORE_MASK: usize = 7;

/// Why parameters are not "laid out as source document 001 gives it", or ask for what is left out.
#[derive(Clone, Copy, Debug, PartialEq, Eq)]
pub enum Fault {
    TooShort,
    Target,
    Action,
    Reserved,
    Truncate,
    MaskTooShort,
    MaskTooLong,
}

/// "top bits first: target 000, action 000, or 100 to turn the match round, bank"
fn target(selection: &[u8]) -> u8 {
    selection[0] >> 5
}

fn action(selection: &[u8]) -> u8 {
    selection[0] >> 2 & 7
}

fn bank(selection: &[u8]) -> usize {
    usize::from(selection[0] & 3)
}

fn mask_bits(selection: &[u8]) -> usize {
    usize::from(selection[5])
}

/// The first thing wrong with the parameters of a Set Select, if any.
pub fn fault(parameters: &[u8]) -> Option<Fault> {
    if parameters.len() < BEFORE_MASK {
        return Some(Fault::TooShort);
    }
    if target(parameters) != 0b000 {
        return Some(Fault::Target);
    }
    if ![0b000, 0b100].contains(&action(parameters)) {
        return Some(Fault::Action);
    }
    // "anything else, or the Reserved bank, is plain 17"
    if bank(parameters) == 0 {
        return Some(Fault::Reserved);
    }
    if parameters[6] != 0 {
        return Some(Fault::Truncate);
    }
    let whole = BEFORE_MASK + mask_bits(parameters).div_ceil(8);
    if parameters.len() < whole {
        return Some(Fault::MaskTooShort);
    }
    if parameters.len() > whole {
        return Some(Fault::MaskTooLong);
    }
    None
}

/// Whether a good tag is one that the selection means.
pub fn matches(selection: &[u8], image: &[u8]) -> bool {
    // "starts empty", and then holds every tag
    if selection.is_empty() {
        hit!(MATCH_NO_SELECTION);
        return true;
    }
    let mask_there = is_mask_there(selection, image);
    // "the turn comes last"
    if action(selection) == 0b100 {
        if mask_there {
            hit!(MATCH_TURNED_AWAY);
        } else {
            hit!(MATCH_TURNED_ROUND);
        }
        return !mask_there;
    }
    if mask_there {
        hit!(MATCH_STRAIGHT);
    } else {
        hit!(MATCH_NOT);
    }
    mask_there
}

/// Whether the bank has the mask's bits from the bit pointer on.
fn is_mask_there(selection: &[u8], image: &[u8]) -> bool {
    let bits = mask_bits(selection);
    // "An empty mask matches every tag", wherever its pointer is
    if bits == 0 {
        hit!(MASK_EMPTY);
        return true;
    }
    let bank = bank(selection);
    let pointer = u32::from_be_bytes([selection[1], selection[2], selection[3], selection[4]]);
    // "one that runs past the end of the bank does not": the end by the bank's words
    let bank_bits = 16 * words_of(image, bank);
    let end = u64::from(pointer) + bits as u64;
    if end > bank_bits as u64 {
        hit!(MASK_PAST_END);
        return false;
    }
    if end == bank_bits as u64 {
        hit!(MASK_TO_THE_END);
    }
    count_bank(bank, end, epc_length(image));
    let start = offset_of(image, bank);
    let bytes = &image[start..start + bank_bits / 8];
    are_bits_equal(bytes, pointer as usize, &selection[BEFORE_MASK..], bits)
}

/// Counts the bank of a mask that lies within it. EPC words behind the L words are the bank's too.
fn count_bank(bank: usize, end: u64, epc_length: usize) {
    match bank {
        EPC if end > 16 * (2 + epc_length as u64) => hit!(MASK_BEHIND_EPC),
        EPC => hit!(MASK_IN_EPC),
        TID => hit!(MASK_IN_TID),
        _ => hit!(MASK_IN_USER),
    }
}

/// Compares so many bits of the mask with the bytes from bit `at` on, highest bit of a byte first,
/// eight at a time; "spare last bits not looked at".
fn are_bits_equal(bytes: &[u8], at: usize, mask: &[u8], bits: usize) -> bool {
    for (i, wanted) in mask.iter().enumerate() {
        let left = bits - 8 * i;
        let looked_at = if left < 8 { 0xFF << (8 - left) } else { 0xFF };
        let differing = eight_bits(bytes, at + 8 * i) ^ wanted;
        if differing & looked_at != 0 {
            hit!(MASK_DIFFERS);
            return false;
        }
        if differing != 0 {
            hit!(MASK_SPARE_BITS_DIFFER);
        }
    }
    hit!(MASK_EQUAL);
    true
}

/// The eight bits from bit `at` on; behind the last byte they count as 0.
fn eight_bits(bytes: &[u8], at: usize) -> u8 {
    let next = bytes.get(at / 8 + 1).copied().unwrap_or(0);
    let two = u16::from_be_bytes([bytes[at / 8], next]);
    (two << (at % 8) >> 8) as u8
}
