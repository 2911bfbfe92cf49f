//! The C header has the same numbers, and the refusals of the interface come in their order.

use super::*;
use crate::generator::sample_image;
use crate::{Answer, Reason};

/// The numbers that the header gives names to, whether `NAME = 1` or `#define NAME 1`.
fn in_header(name: &str) -> Vec<u64> {
    let header = include_str!("../../../include/poldrisk.h");
    let words = header.split_whitespace().collect::<Vec<_>>();
    let named = |row: &&[&str]| row[0] == name || (row[0] == "#define" && row[1] == name);
    let rows = words.windows(3).filter(named);
    rows.filter_map(|row| row[2].trim_end_matches(',').parse().ok())
        .collect()
}

fn in_header_are(numbers: &[(&str, u64)]) {
    for (name, number) in numbers {
        assert_eq!(in_header(&format!("POLDRISK_{name}")), [*number], "{name}");
    }
}

#[test]
fn header_has_the_same_numbers() {
    let numbers = [
        ("CURSOR", CURSOR as u64),
        ("GOOD", COUNTS.start as u64),
        ("ERROR", COUNTS.start as u64 + 1),
        ("DROPPED_NO_HEADER", DROPPED.start as u64),
        ("DROPPED_WRONG_TYPE", DROPPED.start as u64 + 1),
        ("DROPPED_TOO_LONG", DROPPED.start as u64 + 2),
        ("DROPPED_WRONG_CHECK", DROPPED.start as u64 + 3),
        ("DROPPED_WRONG_END", DROPPED.end as u64 - 1),
        ("LENGTH", LENGTH as u64),
        ("REASON", REASON as u64),
        ("NEXT", NEXT as u64),
        ("SELECTED", SELECTED as u64),
        ("STATE_LENGTH", STATE_LENGTH as u64),
        ("SELECTION_LENGTH", SELECTION_LENGTH as u64),
        ("MOST_TAGS", MOST_TAGS as u64),
        ("NONE_TO_HAND_OUT", NONE_TO_HAND_OUT),
        ("OUTPUT_LENGTH", 136),
        ("REASON_NO_HEADER", Reason::NoHeader as u64),
        ("REASON_WRONG_TYPE", Reason::WrongType as u64),
        ("REASON_TOO_LONG", Reason::TooLong as u64),
        ("REASON_WRONG_CHECK", Reason::WrongCheck as u64),
        ("REASON_WRONG_END", Reason::WrongEnd as u64),
        ("BAD_STATE_LENGTH", STATE_LENGTH_WRONG),
        ("BAD_COUNT", COUNT_OUT_OF_RANGE),
        ("BAD_PLACES", PLACES_OUT_OF_RANGE),
    ];
    in_header_are(&numbers);
}

#[test]
fn header_has_the_numbers_of_the_list() {
    in_header_are(&[
        ("HELD", HELD as u64),
        ("RECORD_CURSOR", 0),
        ("RECORD_CAUSE", 1),
        ("RECORD_ERROR", 2),
        ("RECORD_LENGTH", RECORD_LENGTH as u64),
        ("BAD_RECORDS_LENGTH", RECORDS_LENGTH_WRONG),
        ("FULL_LIST", LIST_FULL),
        ("NOT_ACKNOWLEDGED", NOT_ACKNOWLEDGED),
        ("ACKNOWLEDGED", ACKNOWLEDGED),
    ]);
}

type Change = fn(&mut Packed);

/// One tag, with all that a call asks for, and room for two records.
fn lent() -> Packed {
    let mut state = vec![0; STATE_LENGTH];
    state[NEXT] = NONE_TO_HAND_OUT;
    Packed {
        memory: sample_image(),
        places: vec![0, 86],
        selection: [0; SELECTION_LENGTH],
        output: vec![0; 136],
        records: vec![7; 2 * RECORD_LENGTH],
        state,
    }
}

/// Each answer number of the paper, from a state that it is given for.
#[test]
fn header_names_the_answers() {
    let inventory = [0xBB, 0x00, 0x22, 0x00, 0x00, 0x22, 0x7E];
    let cases: [(&str, &[u8], Change); 10] = [
        ("ANSWERED", &inventory, |_| ()),
        ("AT_END", &[], |_| ()),
        ("INCOMPLETE", &[0xBB], |_| ()),
        ("BYTE_DROPPED", &[0x41], |_| ()),
        ("PAST_END", &[], |lent| lent.state[CURSOR] = 1),
        ("BAD_CRATE", &[], |lent| lent.places[0] = 1),
        ("SHORT_OUTPUT", &[], |lent| lent.output.truncate(135)),
        ("FULL_TALLY", &[], |lent| lent.state[DROPPED.start] = LIMIT),
        ("FULL_LIST", &[], |lent| lent.state[HELD] = 2),
        ("FULL_LIST", &[], |lent| lent.records.clear()),
    ];
    for (name, input, change) in cases {
        let mut lent = lent();
        change(&mut lent);
        let number = lent.call(input);
        assert_eq!(in_header(&format!("POLDRISK_{name}")), [number], "{name}");
    }
}

/// Each later refusal is there too: the first that holds is given, and the state is as it was.
#[test]
fn refusals_in_their_order() {
    let mut all = lent();
    all.state[CURSOR] = 1;
    all.state[COUNTS.start] = LIMIT + 1;
    all.places = vec![1];
    all.output.clear();
    all.state[HELD] = 3;
    all.state.push(0);
    all.records.push(7);
    let refusals: [(u64, Change); 9] = [
        (20, |lent| lent.state.truncate(STATE_LENGTH)),
        (21, |lent| lent.state[COUNTS.start] = LIMIT),
        (22, |lent| lent.places.push(86)),
        (23, |lent| lent.records.truncate(6)),
        (10, |lent| lent.state[CURSOR] = 0),
        (11, |lent| lent.places[0] = 0),
        (12, |lent| lent.output.resize(136, 0)),
        (13, |lent| lent.state[COUNTS.start] = 0),
        (14, |lent| lent.state[HELD] = 1),
    ];
    for (number, mend) in refusals {
        let before = all.clone();
        assert_eq!(all.call(&[]), number);
        assert_eq!(all, before, "{number}");
        mend(&mut all);
    }
    let number = all.call(&[]);
    assert_eq!(Answer::of(number, &all), Answer::AtEnd);
}

/// The same of an acknowledge, which has fewer: the state lacks what every call would ask for.
#[test]
fn refusals_of_an_acknowledge() {
    let mut all = lent();
    all.state.fill(u64::MAX);
    all.state[HELD] = 3;
    all.state.pop();
    all.records.extend([7, 7]);
    let refusals: [(u64, Change); 3] = [
        (20, |lent| lent.state.push(3)),
        (23, |lent| lent.records.truncate(6)),
        (15, |lent| lent.state[HELD] = 2),
    ];
    for (number, mend) in refusals {
        let before = all.clone();
        assert_eq!(all.acknowledge(0), number);
        assert_eq!(all, before, "{number}");
        mend(&mut all);
    }
    let before = all.clone();
    assert_eq!(all.acknowledge(3), NOT_ACKNOWLEDGED);
    assert_eq!(all, before);
    assert_eq!(all.acknowledge(2), ACKNOWLEDGED);
    assert_eq!(all.state[HELD], 0);
}
