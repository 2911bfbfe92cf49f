//! The example for C, by the model.

use super::*;

/// The input of the example, read out of its source.
fn example_input() -> Vec<u8> {
    let source = include_str!("../../../../../examples/sample.c");
    let (_, behind) = source.split_once("input[] = {").expect("it has an input");
    let (input, _) = behind.split_once("};").expect("which ends");
    let bytes = input.split([' ', ',', '\n']);
    let bytes = bytes.filter_map(|word| word.strip_prefix("0x"));
    bytes
        .map(|digits| u8::from_str_radix(digits, 16).expect("two digits"))
        .collect()
}

/// The lines of a record each, and all of them taken off the list.
fn sign(bench: &mut Bench) -> String {
    let line = |record: &Record| match record.error {
        0 => format!(
            "SIGNED at {}: dropped, reason {}\n",
            record.cursor, record.cause
        ),
        error => format!(
            "SIGNED at {}: command {:02X}, error {error:02X}\n",
            record.cursor, record.cause
        ),
    };
    let held = bench.held as usize;
    let lines = bench.records[..held].iter().map(line).collect();
    assert_eq!(bench.acknowledge(bench.held), 16);
    lines
}

/// What the example prints of the library, the model gives too: its report, and the records where the
/// list is full and at the end.
#[test]
fn example_for_c() {
    let start = Bench {
        records: vec![Record::default(); 3],
        ..Bench::of_tags(&[tag_b(), tag_c(), tag_a()])
    };
    let input = example_input();
    let whole = report(start.clone(), &input);
    let mut lines = whole.split_inclusive('\n');
    let mut next_line = || lines.next().expect("a line for each answer 0 or 3");
    let mut bench = start;
    let mut printed = String::new();
    let last = loop {
        match bench.call(&input) {
            0 | 3 => printed += next_line(),
            14 => printed += &sign(&mut bench),
            number => break number,
        }
    };
    assert_eq!(last, 2);
    printed += &sign(&mut bench);
    printed += next_line();
    assert_eq!(printed, include_str!("../../../../../examples/sample.out"));
}
