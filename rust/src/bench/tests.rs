//! The wrapper over the library: every answer and what it leaves, on the sample tag and on three tags.

use super::*;
use crate::generator::{frame, sample_image, sample_tag};

mod listing;

const INVENTORY: [u8; 7] = [0xBB, 0x00, 0x22, 0x00, 0x00, 0x22, 0x7E];

fn three_images() -> [Vec<u8>; 3] {
    [0x0D71, 0x0D72, 0x0D70].map(sample_tag)
}

fn three() -> Bench {
    let images = three_images();
    let images: Vec<&[u8]> = images.iter().map(|image| &image[..]).collect();
    Bench::of_tags(&images, 16).expect("three images are short enough")
}

/// The parameters of a Set Select for one bit of the EPC bank.
fn select_bit(bit: u8, set: bool) -> [u8; 8] {
    [0x01, 0, 0, 0, bit, 1, 0, if set { 0x80 } else { 0x00 }]
}

/// The EPC's last byte in each notification that a row of calls gives, to its end.
fn handed_out(bench: &mut Bench, input: &[u8]) -> Vec<u8> {
    let mut last_bytes = Vec::new();
    while bench.call(input) == Answer::Answered(24) {
        assert_eq!(bench.frame()[..3], [0xBB, 0x02, 0x22]);
        last_bytes.push(bench.frame()[19]);
    }
    last_bytes
}

/// The sample tag and input of the scope document, line by line.
#[test]
fn sample_kill() {
    let mut bench = Bench::of_tags(&[&sample_image()], 2).expect("one image");
    let input = [
        0x41, 0xBB, 0x00, 0x65, 0x00, 0x04, 0x00, 0x00, 0xFF, 0xFF, 0x67, 0x7E,
    ];
    assert_eq!(bench.call(&input), Answer::Dropped(Reason::NoHeader));
    assert!(bench.frame().is_empty());
    assert_eq!(bench.call(&input), Answer::Answered(23));
    let frame = [
        0xBB, 0x01, 0x65, 0x00, 0x10, 0x0E, 0x34, 0x00, 0x30, 0x75, 0x1F, 0xEB, 0x70, 0x5C, 0x59,
        0x04, 0xE3, 0xD5, 0x0D, 0x70, 0x00, 0xC5, 0x7E,
    ];
    assert_eq!(bench.frame(), frame);
    assert_eq!(bench.call(&input), Answer::AtEnd);
    let tally = bench.tally();
    assert_eq!((tally.good, tally.error), (1, 0));
    assert_eq!(tally.dropped, [1, 0, 0, 0, 0]);
    assert_eq!(bench.memory()[22], 1);
}

/// Each reason in its turn: it is told, and its own count goes up.
#[test]
fn each_reason() {
    let mut bench = three();
    let wrong = |check, end| [0xBB, 0x00, 0x22, 0x00, 0x00, check, end];
    let inputs: [(Reason, &[u8]); 5] = [
        (Reason::NoHeader, &[0x41]),
        (Reason::WrongType, &[0xBB, 0x01]),
        (Reason::TooLong, &[0xBB, 0x00, 0x22, 0x00, 0x51]),
        (Reason::WrongCheck, &wrong(0x23, 0x7F)),
        (Reason::WrongEnd, &wrong(0x22, 0x7F)),
    ];
    for (reason, input) in inputs {
        bench.set_cursor(0);
        assert_eq!(bench.call(input), Answer::Dropped(reason));
        assert_eq!(bench.cursor(), 1);
        assert_eq!(bench.tally().dropped_for(reason), 1);
    }
    let tally = bench.tally();
    assert_eq!((tally.good, tally.error, tally.dropped), (0, 0, [1; 5]));
}

/// Each tag once, and what is left to hand out after each call.
#[test]
fn inventory_in_full() {
    let mut bench = three();
    assert_eq!(bench.to_hand_out(), 3..3);
    for (tag, last) in [0x71, 0x72, 0x70].into_iter().enumerate() {
        assert_eq!(bench.call(&INVENTORY), Answer::Answered(24));
        assert_eq!(bench.frame()[19], last);
        assert_eq!(bench.to_hand_out(), tag + 1..3);
        assert_eq!(bench.cursor(), 7);
    }
    assert_eq!(bench.call(&INVENTORY), Answer::AtEnd);
    assert_eq!(bench.tally().good, 3);
}

/// A hand-out goes on from any tag, also one that is not there; a tag out of the field is passed over.
#[test]
fn hand_out_from_a_tag() {
    for (from, expected) in [(0, &[0x71, 0x70][..]), (1, &[0x70]), (2, &[0x70]), (3, &[])] {
        let mut bench = three();
        bench.memory_mut()[86 + 22] = 2;
        bench.hand_out_from(from);
        assert_eq!(handed_out(&mut bench, &[]), expected);
    }
    let mut bench = three();
    bench.hand_out_from(usize::MAX);
    assert_eq!(bench.call(&[]), Answer::AtEnd);
    assert_eq!(bench.to_hand_out(), 3..3);
}

/// Set Select is stored, aims what follows, and can be put back into another bench.
#[test]
fn selection_is_kept() {
    let mut bench = three();
    assert!(bench.selection().is_empty());
    let second = select_bit(126, true);
    let select = frame(0x0C, &second);
    assert_eq!(bench.call(&select), Answer::Answered(8));
    assert_eq!(
        bench.frame(),
        [0xBB, 0x01, 0x0C, 0x00, 0x01, 0x00, 0x0E, 0x7E]
    );
    assert_eq!(bench.selection(), second);
    let mut other = three();
    assert!(other.set_selection(&second));
    for bench in [&mut bench, &mut other] {
        bench.set_cursor(0);
        assert_eq!(handed_out(bench, &INVENTORY), [0x72]);
    }
    // a longer one and a shorter one after it; none at all
    assert!(other.set_selection(&select_bit(127, true)));
    assert_eq!(other.selection(), select_bit(127, true));
    assert!(other.set_selection(&[0x11, 0, 0, 0, 0, 0, 0]));
    other.set_cursor(0);
    assert!(handed_out(&mut other, &INVENTORY).is_empty());
    assert!(other.set_selection(&[]));
    other.set_cursor(0);
    assert_eq!(handed_out(&mut other, &INVENTORY), [0x71, 0x72, 0x70]);
}

#[test]
fn selections_that_no_set_select_takes() {
    let mut bench = three();
    let before = bench.clone();
    assert!(!bench.set_selection(&[0x01; SELECTION_LENGTH + 1]));
    assert_eq!(bench, before);
    assert!(bench.set_selection(&[0x01]));
    assert_eq!(bench.call(&INVENTORY), Answer::BadCrate);
    let mut longest = [0; SELECTION_LENGTH];
    (longest[0], longest[5]) = (0x03, 255);
    assert!(bench.set_selection(&longest));
    assert_eq!(bench.call(&[]), Answer::AtEnd);
}

/// Places in any order, with gaps; too far, overlapping, or too many.
#[test]
fn places_of_tags() {
    let place = |from| Place { from, size: 86 };
    let mut bench = three();
    bench.set_places(&[place(172), place(0)]);
    assert_eq!(handed_out(&mut bench, &INVENTORY), [0x70, 0x71]);
    let bad = [
        vec![place(0), place(173)],
        vec![place(0), place(u32::MAX - 85)],
        vec![place(0), place(0)],
        vec![place(0), place(u32::MAX)],
    ];
    for places in bad {
        bench.set_places(&places);
        assert_eq!(bench.call(&INVENTORY), Answer::BadCrate, "{places:?}");
    }
    bench.set_places(&[]);
    assert_eq!(bench.call(&[]), Answer::PastEnd);
    bench.set_cursor(0);
    assert_eq!(bench.call(&[]), Answer::AtEnd);
    let image = sample_image();
    for (tags, answer) in [(16, Answer::AtEnd), (17, Answer::BadCrate)] {
        let mut bench = Bench::of_tags(&vec![&image[..]; tags], 1).expect("short images");
        assert_eq!(bench.call(&[]), answer);
    }
}

/// A refusal in the middle of a hand-out: nothing is lost, and it goes on behind it.
#[test]
fn full_tally_between() {
    let mut bench = three();
    assert_eq!(bench.call(&INVENTORY), Answer::Answered(24));
    let tally = bench.tally();
    for full in full_tallies() {
        bench.set_tally(full);
        assert_eq!(bench.tally(), full);
        assert_eq!(bench.call(&INVENTORY), Answer::FullTally);
        assert_eq!(bench.tally(), full);
        assert!(bench.frame().is_empty());
    }
    bench.set_tally(tally);
    assert_eq!(bench.to_hand_out(), 1..3);
    assert_eq!(handed_out(&mut bench, &INVENTORY), [0x72, 0x70]);
}

/// Each count at its limit, alone.
fn full_tallies() -> Vec<Tally> {
    let mut all = vec![
        Tally {
            good: u32::MAX,
            ..Tally::default()
        },
        Tally {
            error: u32::MAX,
            ..Tally::default()
        },
    ];
    for reason in 0..5 {
        let mut full = Tally::default();
        full.dropped[reason] = u32::MAX;
        all.push(full);
    }
    all
}

#[test]
fn incomplete_and_bad_image() {
    let mut bench = three();
    assert_eq!(bench.call(&INVENTORY[..6]), Answer::Incomplete);
    bench.memory_mut()[172 + 33] ^= 1;
    assert_eq!(bench.call(&INVENTORY), Answer::BadCrate);
    bench.memory_mut()[172 + 33] ^= 1;
    assert_eq!(bench.call(&INVENTORY), Answer::Answered(24));
}
