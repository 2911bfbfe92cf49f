//! What holds of the items of any run.

use super::*;
use crate::generator::crates::good_crate;
use crate::generator::starts::crate_input;
use crate::model::sheet::{Item, Run};

/// Commands for a good crate, and its images.
fn drawn(random: &mut Random) -> (Vec<u8>, Vec<Vec<u8>>) {
    let tags = good_crate(random);
    let inputs = random.between(1, 4);
    let commands = (0..inputs).flat_map(|_| crate_input(random, &tags.memory, &tags.places));
    let commands = commands.collect();
    let images = (0..tags.places.len()).map(|tag| tags.image(tag).to_vec());
    (commands, images.collect())
}

/// An item's first byte and its last; of a failed command those of its frame.
fn range_of(item: &Item, commands: &[u8]) -> (usize, usize) {
    match item {
        Item::Failed { at, .. } => (*at, at + 6 + usize::from(commands[at + 4])),
        Item::Dropped(drops) => (drops.first, drops.last),
    }
}

/// Every failure is in one item, and the items stand in the order of the input with nothing of one in
/// another. Two of drops never touch: a command stands between them. A command is malformed exactly where
/// it is answered 17.
#[test]
fn items_are_the_failures() {
    let mut random = Random::new(12);
    for _ in 0..2000 {
        let (commands, tags) = drawn(&mut random);
        let run = Run::of(&commands, &tags).expect("a good crate");
        let mut failures = 0;
        let mut next = 0;
        let mut behind_drops = false;
        for item in &run.items {
            let (first, last) = range_of(item, &commands);
            assert!(next <= first && first <= last, "{run:?}");
            failures += match item {
                Item::Failed { command, error, .. } => {
                    assert_eq!(command.fields.is_none(), *error == 0x17, "{run:?}");
                    1
                }
                Item::Dropped(drops) => {
                    assert!(!behind_drops || next + 7 <= first, "{run:?}");
                    assert_eq!(drops.reasons.iter().sum::<u64>(), drops.bytes() as u64);
                    drops.bytes() as u64
                }
            };
            next = last + 1;
            behind_drops = matches!(item, Item::Dropped(_));
        }
        assert_eq!(failures, run.counts[1..].iter().sum());
        assert!(next <= run.at_the_end && run.at_the_end + run.left == commands.len());
    }
}

/// "fixed width, 100 columns at most, plain ASCII", and rows that end in the same column.
#[test]
fn no_line_is_wider() {
    let mut random = Random::new(34);
    for _ in 0..500 {
        let (commands, tags) = drawn(&mut random);
        let page = page(&commands, &tags, true);
        assert!(page.is_ascii());
        let table = page.lines().skip(3 + tags.len());
        let rows: Vec<_> = table.skip(1).take_while(|line| !line.is_empty()).collect();
        assert!(rows.iter().all(|row| row.len() == 99), "{page}");
        assert!(page.lines().all(|line| line.len() <= 100), "{page}");
    }
}
