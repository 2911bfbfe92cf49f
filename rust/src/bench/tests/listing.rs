//! The list of failures by the wrapper.

use super::*;
use crate::generator::lists::acknowledged;
use crate::generator::{input, Random};
use crate::record::Failure;

fn with_room(room: usize) -> Bench {
    Bench::of_tags(&[&sample_image()], room).expect("one image")
}

fn dropped(cursor: u64, reason: Reason) -> Record {
    let failure = Failure::Dropped(reason);
    Record { cursor, failure }
}

fn error(cursor: u64, code: u8, error: u8) -> Record {
    let failure = Failure::Error { code, error };
    Record { cursor, failure }
}

fn listed(bench: &Bench) -> Vec<Record> {
    let records = bench.records();
    let held = records.len();
    let all: Vec<_> = records.collect();
    assert_eq!(all.len(), held);
    all
}

/// A failure of each kind behind the other, with a good answer between them.
#[test]
fn failures_are_listed() {
    let mut bench = with_room(5);
    assert_eq!((bench.room(), listed(&bench)), (5, vec![]));
    let mut input = vec![0x41, 0xBB, 0x01];
    input.extend(INVENTORY);
    input.extend(frame(0x65, &[0, 0, 0, 1]));
    input.extend(frame(0x39, &[0, 0, 0xFF, 0xFF, 3, 0, 15, 0, 2]));
    while matches!(bench.call(&input), Answer::Answered(_) | Answer::Dropped(_)) {}
    let expected = [
        dropped(0, Reason::NoHeader),
        dropped(1, Reason::WrongType),
        dropped(2, Reason::NoHeader),
        error(10, 0x65, 0x12),
        error(21, 0x39, 0xA3),
    ];
    assert_eq!(listed(&bench), expected);
}

/// A full list stops a run until some of it is acknowledged; what was not stays in front.
#[test]
fn acknowledge_makes_room() {
    let mut bench = with_room(2);
    let input = [0x41; 5];
    for _ in 0..2 {
        assert_eq!(bench.call(&input), Answer::Dropped(Reason::NoHeader));
    }
    let before = bench.clone();
    assert_eq!(bench.call(&input), Answer::FullList);
    assert_eq!(listed(&bench), listed(&before));
    assert_eq!((bench.cursor(), bench.tally()), (2, before.tally()));
    assert!(bench.acknowledge(1));
    assert_eq!(listed(&bench), [dropped(1, Reason::NoHeader)]);
    assert_eq!(bench.call(&input), Answer::Dropped(Reason::NoHeader));
    let both = [1, 2].map(|cursor| dropped(cursor, Reason::NoHeader));
    assert_eq!(listed(&bench), both);
    assert_eq!(bench.room(), 2);
}

/// More than are held: nothing is taken off. None and all always can be.
#[test]
fn acknowledge_too_many() {
    let mut bench = with_room(3);
    assert!(bench.acknowledge(0));
    for held in 1..4 {
        assert_eq!(bench.call(&[0x41; 4]), Answer::Dropped(Reason::NoHeader));
        let before = bench.clone();
        for count in [held + 1, usize::MAX] {
            assert!(!bench.acknowledge(count));
            assert_eq!(bench, before);
        }
        assert!(bench.acknowledge(0));
        assert_eq!(listed(&bench), listed(&before));
    }
    assert!(bench.acknowledge(3));
    assert!(listed(&bench).is_empty());
}

/// The frame of the last call stays to be read.
#[test]
fn acknowledge_leaves_the_frame() {
    let mut bench = with_room(1);
    assert_eq!(bench.call(&frame(0x77, &[])), Answer::Answered(8));
    assert!(bench.acknowledge(1));
    assert_eq!(bench.frame()[..3], [0xBB, 0x01, 0xFF]);
    assert_eq!(bench.tally().error, 1);
}

#[test]
fn no_room_at_all() {
    let mut bench = with_room(0);
    assert_eq!(bench.call(&[]), Answer::FullList);
    assert!(bench.acknowledge(0));
    assert!(!bench.acknowledge(1));
    assert_eq!(bench.call(&INVENTORY), Answer::FullList);
    assert_eq!(bench.cursor(), 0);
}

/// "records plus acknowledged records equal errors plus drops since the start", in any run.
#[test]
fn records_and_acknowledged_records() {
    let mut random = Random::new(12);
    let mut signed_for = 0;
    for _ in 0..300 {
        let mut bench = with_room(random.between(1, 4));
        let input = input(&mut random, &sample_image());
        let mut signed = 0;
        for _ in 0..2 * input.len() {
            if random.percent(40) {
                let held = bench.records().len();
                let count = acknowledged(&mut random, held as u64) as usize;
                assert_eq!(bench.acknowledge(count), count <= held);
                signed += if count <= held { count } else { 0 };
            }
            bench.call(&input);
            let tally = bench.tally();
            let failures = tally.error + tally.dropped.iter().sum::<u32>();
            assert_eq!(bench.records().len() + signed, failures as usize);
        }
        signed_for += signed;
    }
    assert!(signed_for > 1000, "{signed_for}");
}
