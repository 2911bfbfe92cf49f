//! The model by itself. Here the sample cases of the scope document, and what all its tests use.

use super::image::is_good;
use super::{crc16, Bench, Record, FULL_COUNT};
use crate::generator::{frame, good_image, input, sample_image, set_double, Random};

mod crates;
mod crc_word;
mod finding;
mod listing;
mod locking;
mod sheet;

fn fresh() -> Bench {
    Bench::new(sample_image())
}

/// A fresh bench with these seven counts.
fn counting(counts: [u64; 7]) -> Bench {
    let [good, error, dropped @ ..] = counts;
    Bench {
        good,
        error,
        dropped,
        ..fresh()
    }
}

/// One call on a fresh bench that drops a byte: only the cursor, the reason and its count change, and
/// the list has its record.
fn drops(input: &[u8], reason: u64) {
    let mut bench = fresh();
    assert_eq!(bench.call(input), 3, "{input:02X?}");
    let mut expected = fresh();
    expected.cursor = 1;
    expected.reason = reason;
    expected.dropped[reason as usize - 1] = 1;
    expected.records[0] = record(0, reason, 0);
    expected.held = 1;
    assert_eq!(bench, expected, "{input:02X?}");
}

fn record(cursor: u64, cause: u64, error: u64) -> Record {
    Record {
        cursor,
        cause,
        error,
    }
}

/// One call, and where the list is full its records are acknowledged first, all of them.
fn call_signing(bench: &mut Bench, input: &[u8]) -> u64 {
    match bench.call(input) {
        14 => {
            assert_eq!(bench.acknowledge(bench.held), 16);
            bench.call(input)
        }
        number => number,
    }
}

/// One call on a fresh bench that changes nothing. Length and reason of an earlier call go.
fn stays(input: &[u8], number: u64) {
    let mut bench = fresh();
    bench.length = 23;
    bench.reason = 5;
    assert_eq!(bench.call(input), number, "{input:02X?}");
    assert_eq!(bench, fresh(), "{input:02X?}");
}

/// A frame of this type with these parameters; check and end are so much above the right ones.
fn odd_frame(kind: u8, parameters: &[u8], check: u8, end: u8) -> Vec<u8> {
    let mut bytes = vec![0xBB, kind, 0x22, 0, 0];
    set_double(&mut bytes, 3, parameters.len());
    bytes.extend(parameters);
    let sum = bytes[1..].iter().fold(0u8, |s, b| s.wrapping_add(*b));
    bytes.extend([sum.wrapping_add(check), 0x7Eu8.wrapping_add(end)]);
    bytes
}

/// The report on a run of this bench, as the papers print it: "The program acknowledges a full list
/// whole; its report stays."
fn report(mut bench: Bench, input: &[u8]) -> String {
    let mut lines = String::new();
    loop {
        let at = bench.cursor as usize;
        match call_signing(&mut bench, input) {
            0 => lines += &(hex(&bench.output[..bench.length as usize]) + "\n"),
            3 => lines += &format!("DROP {}\n", hex(&input[at..at + 1])),
            _ => break,
        }
    }
    let (good, error) = (bench.good, bench.error);
    let dropped = bench.dropped.map(|c| c.to_string()).join(" ");
    let left = input.len() as u64 - bench.cursor;
    lines + &format!("GOOD {good} ERROR {error} DROPPED {dropped} LEFT {left}\n")
}

fn hex(bytes: &[u8]) -> String {
    let each: Vec<_> = bytes.iter().map(|b| format!("{b:02X}")).collect();
    each.join(" ")
}

#[test]
fn sample_report() {
    let input = [
        0x41, 0xBB, 0x00, 0x65, 0x00, 0x04, 0x00, 0x00, 0xFF, 0xFF, 0x67, 0x7E,
    ];
    let expected = "DROP 41\n\
        BB 01 65 00 10 0E 34 00 30 75 1F EB 70 5C 59 04 E3 D5 0D 70 00 C5 7E\n\
        GOOD 1 ERROR 0 DROPPED 1 0 0 0 0 LEFT 0\n";
    assert_eq!(report(fresh(), &input), expected);
}

/// "The same frame with check 46: one byte dropped."
#[test]
fn sample_read_with_check_46() {
    let mut read = vec![0xBB, 0x00, 0x39, 0x00, 0x09, 0x00, 0x00, 0xFF, 0xFF, 0x03];
    read.extend([0x00, 0x00, 0x00, 0x02, 0x45, 0x7E]);
    let mut bench = fresh();
    bench.reason = 4;
    assert_eq!(bench.call(&read), 0);
    assert_eq!(bench.counts(), [1, 0, 0, 0, 0, 0, 0]);
    assert_eq!(bench.reason, 0);
    read[14] = 0x46;
    drops(&read, 4);
}

/// The sample tag's answer to a command with this code, parameter byte and check.
fn tail_frame(code: u8, error: Option<u8>, check: u8) -> Vec<u8> {
    let mut bytes = vec![0xBB, 0x01, code, 0x00, 0x10];
    bytes.extend(error);
    bytes.extend([0x0E, 0x34, 0x00, 0x30, 0x75, 0x1F, 0xEB, 0x70]);
    bytes.extend([0x5C, 0x59, 0x04, 0xE3, 0xD5, 0x0D, 0x70]);
    if error.is_none() {
        bytes.push(0x00);
    }
    bytes.extend([check, 0x7E]);
    bytes
}

/// A Lock of the sample tag with its password and this LD.
fn lock_frame(ld: usize) -> Vec<u8> {
    let [_, high, middle, low] = (ld as u32).to_be_bytes();
    frame(0x82, &[0x00, 0x00, 0xFF, 0xFF, high, middle, low])
}
