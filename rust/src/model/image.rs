//! A tag's image: its fields, and what makes it good.

use super::crc::crc16;
use super::{EPC, RESERVED, TID, USER};

/// "all two-byte numbers high byte first"
pub(super) fn double(bytes: &[u8], at: usize) -> usize {
    usize::from(bytes[at]) * 256 + usize::from(bytes[at + 1])
}

pub(super) fn words_of(image: &[u8], bank: usize) -> usize {
    double(image, 4 + 4 * bank)
}

pub(super) fn offset_of(image: &[u8], bank: usize) -> usize {
    double(image, 6 + 4 * bank)
}

fn end_of(image: &[u8], bank: usize) -> usize {
    offset_of(image, bank) + 2 * words_of(image, bank)
}

pub(super) fn password_at(bytes: &[u8], at: usize) -> u32 {
    u32::from_be_bytes([bytes[at], bytes[at + 1], bytes[at + 2], bytes[at + 3]])
}

/// "Reserved words 0-1 are the kill password"
pub(super) fn kill_password(image: &[u8]) -> u32 {
    password_at(image, offset_of(image, RESERVED))
}

/// "2-3 the access password"
pub(super) fn access_password(image: &[u8]) -> u32 {
    password_at(image, offset_of(image, RESERVED) + 4)
}

/// "0 present, 1 killed, 2 out of the field"
pub(super) fn is_present(image: &[u8]) -> bool {
    image[22] == 0
}

/// "EPC word 1 is the PC; its top five bits L count the EPC words that follow it"
pub(super) fn epc_length(image: &[u8]) -> usize {
    usize::from(image[offset_of(image, EPC) + 2] >> 3)
}

/// The stored PC and its L EPC words.
pub(super) fn pc_and_epc(image: &[u8]) -> &[u8] {
    let start = offset_of(image, EPC) + 2;
    &image[start..start + 2 + 2 * epc_length(image)]
}

/// "A Gen2 tag holds its CRC-16 in EPC word 0"
pub(super) fn crc_word(image: &[u8]) -> [u8; 2] {
    let start = offset_of(image, EPC);
    [image[start], image[start + 1]]
}

/// "An image that breaks any of this is bad."
pub(super) fn is_good(image: &[u8]) -> bool {
    if image.len() < 24 {
        hit!(IMAGE_SHORTER_THAN_HEADER);
        return false;
    }
    if double(image, 0) != 1 {
        hit!(FORMAT_WRONG);
        return false;
    }
    if double(image, 2) != image.len() {
        hit!(TOTAL_NOT_LENGTH);
        return false;
    }
    if image.len() > 2048 {
        hit!(TOTAL_ABOVE_2048);
        return false;
    }
    if !are_words_good(image) || !are_offsets_good(image) {
        return false;
    }
    is_tag_good(image)
}

/// The rules on what stands in the layout.
fn is_tag_good(image: &[u8]) -> bool {
    // "lock bits; the upper six are 0"
    if image[20] > 3 {
        hit!(LOCK_UPPER_BITS);
        return false;
    }
    if image[22] > 2 {
        hit!(STATE_UNKNOWN);
        return false;
    }
    // "L + 2 is at most the EPC word count"
    if epc_length(image) + 2 > words_of(image, EPC) {
        hit!(EPC_LENGTH_HIGH);
        return false;
    }
    // "that word of a good image equals the CRC-16 of the stored PC and its L EPC words"
    if crc_word(image) != crc16(pc_and_epc(image)).to_be_bytes() {
        hit!(CRC_WORD_WRONG);
        return false;
    }
    true
}

/// "Reserved: words (exactly 4)", "EPC: words (2 to 33)", "TID: words (1 to 32)",
/// "User: words (0 to 512)"
fn are_words_good(image: &[u8]) -> bool {
    if words_of(image, RESERVED) != 4 {
        hit!(RESERVED_WORDS_WRONG);
        return false;
    }
    if words_of(image, EPC) < 2 {
        hit!(EPC_WORDS_FEW);
        return false;
    }
    if words_of(image, EPC) > 33 {
        hit!(EPC_WORDS_MANY);
        return false;
    }
    if words_of(image, TID) < 1 {
        hit!(TID_WORDS_FEW);
        return false;
    }
    if words_of(image, TID) > 32 {
        hit!(TID_WORDS_MANY);
        return false;
    }
    if words_of(image, USER) > 512 {
        hit!(USER_WORDS_MANY);
        return false;
    }
    true
}

/// "The Reserved offset is at least 24; each later offset is at least the end of the bank
/// before; the last end is at most the total."
fn are_offsets_good(image: &[u8]) -> bool {
    if offset_of(image, RESERVED) < 24 {
        hit!(RESERVED_OFFSET_LOW);
        return false;
    }
    if offset_of(image, EPC) < end_of(image, RESERVED) {
        hit!(EPC_OFFSET_LOW);
        return false;
    }
    if offset_of(image, TID) < end_of(image, EPC) {
        hit!(TID_OFFSET_LOW);
        return false;
    }
    if offset_of(image, USER) < end_of(image, TID) {
        hit!(USER_OFFSET_LOW);
        return false;
    }
    if end_of(image, USER) > image.len() {
        hit!(LAST_END_HIGH);
        return false;
    }
    true
}
