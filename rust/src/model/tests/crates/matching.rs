//! Which tags a mask matches.

use super::*;

/// Whether the sample tag, with L at 5 if asked, is handed out under this selection and its turn.
fn is_meant(image: &[u8], sel_param: u8, pointer: u32, bits: u8, mask: &[u8]) -> bool {
    let [straight, turned] = [sel_param, sel_param | 0x10].map(|sel_param| {
        let mut bench = Bench::new(image.to_vec());
        bench.selection = select(sel_param, pointer, bits, mask);
        let frames = inventory(&mut bench);
        assert_eq!(frames.len(), 1);
        frames[0] != NO_TAG
    });
    // "the turn comes last", so whatever the mask does
    assert_ne!(straight, turned);
    straight
}

fn is_sample_meant(sel_param: u8, pointer: u32, bits: u8, mask: &[u8]) -> bool {
    is_meant(&sample_image(), sel_param, pointer, bits, mask)
}

#[test]
fn match_in_epc() {
    let epc = &PUBLISHED[12..24];
    assert!(is_sample_meant(0x01, 0x20, 96, epc));
    // the CRC word and the PC are the bank's first words; whole words, single bits, odd places
    assert!(is_sample_meant(0x01, 0, 16, &[0x3A, 0x76]));
    assert!(is_sample_meant(0x01, 16, 16, &[0x34, 0x00]));
    assert!(is_sample_meant(0x01, 2, 1, &[0x80]));
    assert!(!is_sample_meant(0x01, 2, 1, &[0x00]));
    // 3A76 3400 from bit 4 on: A763 400.
    assert!(is_sample_meant(0x01, 4, 16, &[0xA7, 0x63]));
    assert!(is_sample_meant(0x01, 4, 20, &[0xA7, 0x63, 0x40]));
    assert!(!is_sample_meant(0x01, 4, 20, &[0xA7, 0x63, 0x50]));
    // from bit 7 on: 0 0111 0110 0011 0100, so 3B 1A 0.
    assert!(is_sample_meant(0x01, 7, 17, &[0x3B, 0x1A, 0x00]));
    assert!(!is_sample_meant(0x01, 7, 17, &[0x3B, 0x1A, 0x80]));
    assert!(!is_sample_meant(0x01, 6, 17, &[0x3B, 0x1A, 0x00]));
    // any one bit of 96 off
    for bit in 0..96 {
        let mut mask = epc.to_vec();
        mask[bit / 8] ^= 0x80 >> (bit % 8);
        assert!(!is_sample_meant(0x01, 0x20, 96, &mask), "bit {bit}");
    }
}

/// "spare last bits not looked at"
#[test]
fn match_without_spare_bits() {
    for bits in 1..=8u8 {
        for spare in 0..=255u8 {
            // User starts with 12: 0001 0010
            let mask = 0x12 ^ spare;
            let expected = u32::from(spare).leading_zeros() - 24 >= u32::from(bits);
            let meant = is_sample_meant(0x03, 0, bits, &[mask]);
            assert_eq!(meant, expected, "{bits} bits of {mask:02X}");
        }
    }
    // the last spare bits lie behind the bank's end
    assert!(is_sample_meant(0x01, 127, 1, &[0x7F]));
    assert!(is_sample_meant(0x01, 121, 7, &[0xE1]));
}

#[test]
fn match_in_tid_and_user() {
    assert!(is_sample_meant(0x02, 0, 48, &[0; 6]));
    assert!(!is_sample_meant(0x02, 0, 48, &[0, 0, 0, 0, 0, 1]));
    assert!(is_sample_meant(0x03, 4, 8, &[0x23]));
    assert!(is_sample_meant(0x03, 12, 8, &[0x45]));
    assert!(is_sample_meant(0x03, 0, 32, &[0x12, 0x34, 0x56, 0x78]));
    assert!(!is_sample_meant(0x02, 0, 32, &[0x12, 0x34, 0x56, 0x78]));
    // 255 bits, the longest mask
    let mut mask = [0; 32];
    mask[..4].copy_from_slice(&[0x12, 0x34, 0x56, 0x78]);
    assert!(is_sample_meant(0x03, 0, 255, &mask));
    // bits 1 to 255: each bit one place further up
    mask[..4].copy_from_slice(&[0x24, 0x68, 0xAC, 0xF0]);
    assert!(is_sample_meant(0x03, 1, 255, &mask));
    assert!(!is_sample_meant(0x03, 2, 255, &mask));
}

/// "one that runs past the end of the bank does not": 8, 3 and 16 words have 128, 48 and 256 bits.
#[test]
fn match_up_to_the_end() {
    for (bank, end, last) in [(1, 128, 0x70), (2, 48, 0x00), (3, 256, 0x00)] {
        assert!(is_sample_meant(bank, end - 8, 8, &[last]));
        assert!(!is_sample_meant(bank, end - 7, 8, &[last << 1]));
        assert!(is_sample_meant(bank, end - 1, 1, &[0x00]));
        assert!(!is_sample_meant(bank, end - 1, 1, &[0x80]));
        for mask in [0x00, 0x80] {
            assert!(!is_sample_meant(bank, end, 1, &[mask]));
            assert!(!is_sample_meant(bank, end - 1, 2, &[mask]));
        }
    }
    // the next bank's bytes stand right behind, and are not looked at: 0D70 0000
    assert!(!is_sample_meant(0x01, 112, 17, &[0x0D, 0x70, 0x00]));
    // no User words at all: an empty mask, and one of a single bit
    let mut image = sample_image();
    set_double(&mut image, 16, 0);
    assert!(is_meant(&image, 0x03, 0, 0, &[]));
    assert!(!is_meant(&image, 0x03, 0, 1, &[0x00]));
    assert!(!is_meant(&image, 0x03, 0, 1, &[0x80]));
}

/// The pointer has 32 bits, and none of them is cut.
#[test]
fn match_far_out() {
    for far in [0x100, 0x1_0000, 0x100_0000, 0x8000_0000, 0xFFFF_FF00] {
        assert!(!is_sample_meant(0x01, far + 0x20, 8, &[0x30]));
    }
    for pointer in [u32::MAX, u32::MAX - 7, u32::MAX - 15] {
        assert!(!is_sample_meant(0x01, pointer, 16, &[0x3A, 0x76]));
        // "An empty mask matches every tag"
        assert!(is_sample_meant(0x01, pointer, 0, &[]));
    }
    assert!(is_sample_meant(0x02, 49, 0, &[]));
}

/// The bank's end is by its words: a word behind the L words is looked at like any other.
#[test]
fn match_behind_the_epc() {
    let mut image = sample_image();
    image[34] = 0x2C;
    set_double(&mut image, 32, 0x9ADC);
    assert!(is_meant(&image, 0x01, 112, 16, &[0x0D, 0x70]));
    assert!(!is_meant(&image, 0x01, 112, 16, &[0x0D, 0x71]));
    assert!(is_meant(&image, 0x01, 127, 1, &[0x00]));
    assert!(!is_meant(&image, 0x01, 128, 1, &[0x00]));
}
