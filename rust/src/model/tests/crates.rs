//! Several tags: the crate's rules, Set Select, which tag a command is for, and the hand-out.

use super::{call_signing, frame, fresh, hex, lock_frame, report, Bench, Record, FULL_COUNT};
use crate::generator::crates::{good_crate, image_at};
use crate::generator::selections::select_parameters;
use crate::generator::starts::crate_input;
use crate::generator::{sample_image, set_crc_word, set_double, Random};
use crate::model::NONE_TO_HAND_OUT;

mod aiming;
mod any_crate;
mod example;
mod good_crates;
mod handing_out;
mod matching;
mod set_select;

/// The published Set Select: the EPC of the sample tag, from bit 32 on.
const PUBLISHED: [u8; 26] = [
    0xBB, 0x00, 0x0C, 0x00, 0x13, 0x01, 0x00, 0x00, 0x00, 0x20, 0x60, 0x00, 0x30, 0x75, 0x1F, 0xEB,
    0x70, 0x5C, 0x59, 0x04, 0xE3, 0xD5, 0x0D, 0x70, 0xAD, 0x7E,
];
const SELECTED: [u8; 8] = [0xBB, 0x01, 0x0C, 0x00, 0x01, 0x00, 0x0E, 0x7E];
const INVENTORY: [u8; 7] = [0xBB, 0x00, 0x22, 0x00, 0x00, 0x22, 0x7E];

/// The sample tag with another last EPC word, and the CRC word for it.
fn tag(last: usize, crc: usize) -> Vec<u8> {
    let mut image = sample_image();
    set_double(&mut image, 32, crc);
    set_double(&mut image, 46, last);
    image
}

fn tag_a() -> Vec<u8> {
    tag(0x0D70, 0x3A76)
}

fn tag_b() -> Vec<u8> {
    tag(0x0D71, 0x2A57)
}

fn tag_c() -> Vec<u8> {
    tag(0x0D72, 0x1A34)
}

/// The notifications of these three.
const A: &str = "BB 02 22 00 11 C9 34 00 30 75 1F EB 70 5C 59 04 E3 D5 0D 70 3A 76 EF 7E";
const B: &str = "BB 02 22 00 11 C9 34 00 30 75 1F EB 70 5C 59 04 E3 D5 0D 71 2A 57 C1 7E";
const C: &str = "BB 02 22 00 11 C9 34 00 30 75 1F EB 70 5C 59 04 E3 D5 0D 72 1A 34 8F 7E";
const NO_TAG: &str = "BB 01 FF 00 01 15 16 7E";
const WRONG: &str = "BB 01 FF 00 01 17 18 7E";

fn three() -> Bench {
    Bench::of_tags(&[tag_a(), tag_b(), tag_c()])
}

/// Where the images of `three` start.
const STARTS: [usize; 3] = [0, 86, 172];

fn said(bench: &Bench) -> String {
    hex(&bench.output[..bench.length as usize])
}

/// A call that answers 0 with this frame.
fn answers(bench: &mut Bench, input: &[u8], expected: &str) {
    assert_eq!(bench.call(input), 0, "{input:02X?}");
    assert_eq!(said(bench), expected, "{input:02X?}");
}

/// A whole input of its own, from its start.
fn takes(bench: &mut Bench, input: &[u8], expected: &str) {
    bench.cursor = 0;
    answers(bench, input, expected);
    assert_eq!(bench.cursor, input.len() as u64);
}

/// What an inventory on this bench hands out, frame by frame, to the end of its input.
fn inventory(bench: &mut Bench) -> Vec<String> {
    bench.cursor = 0;
    let mut frames = Vec::new();
    while bench.call(&INVENTORY) == 0 {
        assert_eq!(bench.cursor, 7);
        frames.push(said(bench));
    }
    frames
}

/// The parameters of a Set Select.
fn select(sel_param: u8, pointer: u32, bits: u8, mask: &[u8]) -> Vec<u8> {
    let mut parameters = vec![sel_param];
    parameters.extend(pointer.to_be_bytes());
    parameters.extend([bits, 0]);
    parameters.extend(mask);
    parameters
}

/// Parameters that Set Select does not take.
fn not_taken() -> Vec<Vec<u8>> {
    let good = PUBLISHED[5..24].to_vec();
    let mut all: Vec<Vec<u8>> = (0..7).map(|pl| good[..pl].to_vec()).collect();
    for sel_param in 0..=255 {
        if ![0x01, 0x02, 0x03, 0x11, 0x12, 0x13].contains(&sel_param) {
            all.push([&[sel_param], &good[1..]].concat());
        }
    }
    for truncate in 1..=255 {
        all.push([&good[..6], &[truncate], &good[7..]].concat());
    }
    // a mask one byte short or long; 97 bits and 88 with the bytes of 96
    all.push(good[..18].to_vec());
    all.push([&good[..], &[0]].concat());
    for bits in [0, 88, 97, 255] {
        all.push([&good[..5], &[bits], &good[6..]].concat());
    }
    all.push(select(0x01, 0, 0, &[0]));
    all.push(select(0x01, 0, 8, &[]));
    all.push(select(0x01, 0, 8, &[0, 0]));
    all.push(select(0x01, 0, 9, &[0]));
    all.push(select(0x01, 0, 255, &[0; 31]));
    all.push(select(0x01, 0, 255, &[0; 33]));
    all
}

/// A Read of two User words, a Write of them and a Kill, with the sample's passwords.
const READ: [u8; 16] = [
    0xBB, 0x00, 0x39, 0x00, 0x09, 0x00, 0x00, 0xFF, 0xFF, 0x03, 0x00, 0x00, 0x00, 0x02, 0x45, 0x7E,
];

const WRITE: [u8; 20] = [
    0xBB, 0x00, 0x49, 0x00, 0x0D, 0x00, 0x00, 0xFF, 0xFF, 0x03, 0x00, 0x00, 0x00, 0x02, 0x12, 0x34,
    0x56, 0x78, 0x6D, 0x7E,
];

const KILL: [u8; 11] = [
    0xBB, 0x00, 0x65, 0x00, 0x04, 0x00, 0x00, 0xFF, 0xFF, 0x67, 0x7E,
];

/// A good answer of one of the three: its code, PL, the tail, then this.
fn tag_frame(code: u8, last: u8, then: &[u8], check: u8) -> String {
    let mut bytes = vec![0xBB, 0x01, code, 0x00, 15 + then.len() as u8, 0x0E];
    bytes.extend([0x34, 0x00, 0x30, 0x75, 0x1F, 0xEB, 0x70, 0x5C]);
    bytes.extend([0x59, 0x04, 0xE3, 0xD5, 0x0D, last]);
    bytes.extend(then);
    bytes.extend([check, 0x7E]);
    hex(&bytes)
}
