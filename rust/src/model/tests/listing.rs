//! The list the builder signs: what is listed, when it is full, and what an acknowledge takes off it.

use super::*;

mod acknowledging;
mod any_run;
mod full;

type Change = fn(&mut Bench);

const INVENTORY: [u8; 7] = [0xBB, 0x00, 0x22, 0x00, 0x00, 0x22, 0x7E];

/// Another record for each number, with numbers that no call would write.
fn numbered(n: u64) -> Record {
    record(1000 + n, u64::MAX - n, 1 << 40 | n)
}

/// The sample tag, with so much room and so many records held.
fn holding(room: u64, held: u64) -> Bench {
    Bench {
        records: (0..room).map(numbered).collect(),
        held,
        ..fresh()
    }
}

fn held(bench: &Bench) -> &[Record] {
    &bench.records[..bench.held as usize]
}

/// A failure of each kind, and the cause and error byte that it is listed with.
fn failures() -> Vec<(Vec<u8>, u64, u64)> {
    let wrong = [0, 0, 0, 1];
    let right = [0, 0, 0xFF, 0xFF];
    let with = |password: [u8; 4], then: &[u8]| [&password, then].concat();
    let far = [3, 0, 15, 0, 2];
    let ld = [0x02, 0x00, 0x80];
    vec![
        (vec![0x41], 1, 0),
        (vec![0xBB, 0x01], 2, 0),
        (vec![0xBB, 0x00, 0x22, 0x01, 0x00], 3, 0),
        (odd_frame(0, &[], 1, 1), 4, 0),
        (odd_frame(0, &[], 0, 1), 5, 0),
        // a tag error frame has its byte before the tail
        (frame(0x39, &with(wrong, &[3, 0, 0, 0, 2])), 0x39, 0x16),
        (frame(0x39, &with(right, &far)), 0x39, 0xA3),
        (
            frame(0x49, &with(right, &[1, 0, 0, 0, 1, 1, 2])),
            0x49,
            0xB4,
        ),
        (frame(0x82, &with([0; 4], &ld)), 0x82, 0x13),
        (frame(0x65, &wrong), 0x65, 0x12),
        (frame(0x22, &[0]), 0x22, 0x17),
        (frame(0x0C, &[0]), 0x0C, 0x17),
        // codes that no command has: the command's own code stands in the record, not the answer's
        (frame(0x77, &[]), 0x77, 0x17),
        (frame(0x00, &[]), 0x00, 0x17),
        (frame(0xFF, &[]), 0xFF, 0x17),
    ]
}

/// "Each error answer and each drop adds exactly one record", and nothing else of the list changes.
#[test]
fn each_failure_is_listed() {
    for (input, cause, error) in failures() {
        for before in [0, 1, 4] {
            let mut bench = holding(5, before);
            bench.cursor = 3;
            let mut records = bench.records.clone();
            records[before as usize] = record(3, cause, error);
            let shifted = [&[0x41, 0x41, 0x41], &input[..]].concat();
            assert!([0, 3].contains(&bench.call(&shifted)), "{input:02X?}");
            assert_eq!(bench.held, before + 1);
            assert_eq!(bench.records, records, "{input:02X?}");
        }
    }
}

/// "in order", with the cursor before each call.
#[test]
fn failures_along_an_input() {
    let mut bench = fresh();
    let mut input = Vec::new();
    let mut expected = Vec::new();
    for (bytes, cause, error) in failures() {
        expected.push(record(input.len() as u64, cause, error));
        // behind a false header its other bytes are dropped one by one
        let others = if error == 0 { &bytes[1..] } else { &[] };
        for at in 0..others.len() as u64 {
            expected.push(record(input.len() as u64 + 1 + at, 1, 0));
        }
        input.extend(bytes);
        input.extend(INVENTORY);
    }
    while [0, 3].contains(&bench.call(&input)) {}
    assert_eq!(bench.cursor, input.len() as u64);
    assert_eq!(bench.good, failures().len() as u64);
    assert_eq!(held(&bench), expected);
}

/// Good answers, waiting calls and refusals list nothing.
#[test]
fn nothing_else_is_listed() {
    let cases: [(&[u8], u64, Change); 8] = [
        (&INVENTORY, 0, |_| ()),
        (&[], 0, |b| b.next = 0),
        (&[], 1, |_| ()),
        (&INVENTORY[..6], 2, |_| ()),
        (&[], 10, |b| b.cursor = 1),
        (&[0x41], 11, |b| b.memory[1] = 2),
        (&[0x41], 12, |b| b.output.truncate(135)),
        (&[0x41], 13, |b| b.dropped[2] = FULL_COUNT),
    ];
    for (input, number, change) in cases {
        let mut bench = holding(3, 2);
        change(&mut bench);
        assert_eq!(bench.call(input), number);
        assert_eq!((bench.records, bench.held), (holding(3, 2).records, 2));
    }
}

/// A Read, a Write, a Lock, a Kill and an inventory where no tag is present.
#[test]
fn no_tag_is_listed() {
    let read = [0, 0, 0xFF, 0xFF, 3, 0, 0, 0, 1];
    let write = [&read[..], &[1, 2]].concat();
    let cases = [
        (0x39, &read[..], 0x09),
        (0x49, &write, 0x10),
        (0x82, &[0, 0, 0xFF, 0xFF, 2, 0, 0x80], 0x13),
        (0x65, &[0, 0, 0xFF, 0xFF], 0x12),
        (0x22, &[], 0x15),
    ];
    for (code, parameters, error) in cases {
        let mut bench = fresh();
        bench.memory[22] = 2;
        assert_eq!(bench.call(&frame(code, parameters)), 0);
        assert_eq!(held(&bench), [record(0, code.into(), error)]);
    }
}
