//! Runs drawn at random, held against a list without a limit.

use super::*;
use crate::generator::crates::good_crate;
use crate::generator::lists::acknowledged;
use crate::generator::starts::crate_input;

/// A random crate with a list of so much room, empty at the start.
fn random_bench(random: &mut Random, room: usize) -> Bench {
    let tags = good_crate(random);
    Bench {
        memory: tags.memory,
        places: tags.places,
        records: vec![Record::default(); room],
        ..Bench::of_tags(&[])
    }
}

/// What a call that answered so is to be listed with, read off the input and the answer frame.
fn failure(bench: &Bench, number: u64, at: u64, input: &[u8]) -> Option<Record> {
    match number {
        3 => Some(record(at, bench.reason, 0)),
        0 if bench.output[2] == 0xFF => {
            let code = input[at as usize + 2];
            Some(record(at, code.into(), bench.output[5].into()))
        }
        _ => None,
    }
}

/// "records plus acknowledged records equal errors plus drops since the start", and they are these.
#[test]
fn records_and_acknowledged_records() {
    let mut random = Random::new(12);
    let mut numbers = [0; 17];
    for _ in 0..2000 {
        let room = random.pick(&[1, 2, 3, 20]);
        let mut bench = random_bench(&mut random, room);
        let input = crate_input(&mut random, &bench.memory, &bench.places);
        let (mut all, mut signed) = (Vec::new(), 0);
        for _ in 0..3 * input.len() {
            let number = if random.percent(30) {
                let n = acknowledged(&mut random, bench.held);
                let number = bench.acknowledge(n);
                signed += if number == 16 { n as usize } else { 0 };
                number
            } else {
                let at = bench.cursor;
                let number = bench.call(&input);
                all.extend(failure(&bench, number, at, &input));
                number
            };
            numbers[number as usize] += 1;
            assert_eq!(held(&bench), &all[signed..]);
            let failed = bench.error + bench.dropped.iter().sum::<u64>();
            assert_eq!(bench.held + signed as u64, failed);
        }
    }
    for number in [0, 1, 2, 3, 14, 15, 16] {
        assert!(numbers[number] > 100, "{number}: {numbers:?}");
    }
}

/// "The program acknowledges a full list whole; its report stays": with any room it is the same.
#[test]
fn report_with_any_room() {
    let mut random = Random::new(13);
    for _ in 0..500 {
        let bench = random_bench(&mut random, 1000);
        let input = crate_input(&mut random, &bench.memory, &bench.places);
        let expected = report(bench.clone(), &input);
        for room in [1, 2, 3, 64] {
            let records = vec![Record::default(); room];
            let bench = Bench {
                records,
                ..bench.clone()
            };
            assert_eq!(report(bench, &input), expected, "{room}");
        }
    }
}
