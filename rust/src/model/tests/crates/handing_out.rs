//! Tags handed out one by one.

use super::*;

/// "each matching present tag exactly once, in rising number, one per call"
#[test]
fn hand_out_three() {
    let mut bench = three();
    for (number, frame) in [A, B, C].into_iter().enumerate() {
        let mut expected = bench.clone();
        answers(&mut bench, &INVENTORY, frame);
        // only output, good count and what is left change; the cursor with the first alone
        expected.output.clone_from(&bench.output);
        expected.length = 24;
        expected.cursor = 7;
        expected.good = number as u64 + 1;
        expected.next = bench.next;
        assert_eq!(bench, expected);
    }
    assert_eq!(bench.call(&INVENTORY), 1);
    // and all of them again
    assert_eq!(inventory(&mut bench), [A, B, C]);
    // sixteen
    let tags: Vec<_> = (0..16).map(|n| [tag_a(), tag_b()][n % 2].clone()).collect();
    let frames: Vec<_> = (0..16).map(|n| [A, B][n % 2]).collect();
    let mut bench = Bench::of_tags(&tags);
    assert_eq!(inventory(&mut bench), frames);
    assert_eq!(bench.good, 16);
}

/// The selection "holds for inventory too"; tags that are not present do not come.
#[test]
fn hand_out_some() {
    let mut bench = three();
    takes(&mut bench, &PUBLISHED, &hex(&SELECTED));
    assert_eq!(inventory(&mut bench), [A]);
    let mut turned = PUBLISHED;
    turned[5] = 0x11;
    turned[24] = 0xBD;
    takes(&mut bench, &turned, &hex(&SELECTED));
    assert_eq!(inventory(&mut bench), [B, C]);
    bench.memory[STARTS[1] + 22] = 2;
    assert_eq!(inventory(&mut bench), [C]);
    bench.memory[STARTS[2] + 22] = 1;
    assert_eq!(inventory(&mut bench), [NO_TAG]);
}

/// Before the finding rules: whatever stands at the cursor waits for the last tag.
#[test]
fn hand_out_before_the_input() {
    for (behind, number) in [
        (&[][..], 1),
        (&[0xBB], 2),
        (&[0xBB, 0x00, 0x22, 0x00], 2),
        (&[0x41], 3),
        (&[0xBB, 0x01], 3),
        (&READ, 0),
        (&INVENTORY, 0),
        (&PUBLISHED, 0),
    ] {
        let input = [&INVENTORY, behind].concat();
        let mut bench = three();
        for frame in [A, B, C] {
            answers(&mut bench, &input, frame);
            assert_eq!((bench.cursor, bench.reason), (7, 0));
        }
        assert_eq!(bench.counts(), [3, 0, 0, 0, 0, 0, 0]);
        assert_eq!(bench.call(&input), number, "{behind:02X?}");
    }
    // two inventories, one behind the other
    let input = [INVENTORY, INVENTORY].concat();
    let mut bench = three();
    for (frame, cursor) in [(A, 7), (B, 7), (C, 7), (A, 14), (B, 14), (C, 14)] {
        answers(&mut bench, &input, frame);
        assert_eq!(bench.cursor, cursor);
    }
    assert_eq!(bench.call(&input), 1);
}

/// A hand-out needs no input at all, and goes on over a new one.
#[test]
fn hand_out_over_another_input() {
    let mut bench = three();
    answers(&mut bench, &INVENTORY, A);
    bench.cursor = 0;
    answers(&mut bench, &[], B);
    answers(&mut bench, &KILL, C);
    assert_eq!(bench.cursor, 0);
    answers(&mut bench, &KILL, &tag_frame(0x65, 0x70, &[0], 0xC5));
}

/// "Tests in the order 10, 11, 12, 13" come before a hand-out, and leave what is to be handed out.
#[test]
fn hand_out_after_refusals() {
    let mut bench = three();
    answers(&mut bench, &INVENTORY, A);
    let breaks: [fn(&mut Bench); 4] = [
        |b| b.cursor = 8,
        |b| b.memory[STARTS[2]] = 1,
        |b| b.output.truncate(135),
        |b| b.error = FULL_COUNT,
    ];
    for (number, break_it) in (10..).zip(breaks) {
        let mut broken = bench.clone();
        break_it(&mut broken);
        let mut after = broken.clone();
        after.length = 0;
        assert_eq!(broken.call(&INVENTORY), number);
        assert_eq!(broken, after);
    }
    answers(&mut bench, &INVENTORY, B);
    // the last good count that is free is still given
    bench.good = FULL_COUNT - 1;
    answers(&mut bench, &INVENTORY, C);
    assert_eq!(bench.good, FULL_COUNT);
    assert_eq!(bench.call(&INVENTORY), 13);
}

/// "one no longer present and matching at its turn is passed over", inside the call that goes on.
#[test]
fn hand_out_passes_over() {
    let left = |change: fn(&mut Bench)| {
        let mut bench = three();
        answers(&mut bench, &INVENTORY, A);
        change(&mut bench);
        bench
    };
    // the second is no longer there
    let mut bench = left(|b| b.memory[STARTS[1] + 22] = 2);
    answers(&mut bench, &INVENTORY, C);
    assert_eq!(bench.call(&INVENTORY), 1);
    // nor the third: the call goes on with the finding rules, and leaves the rest as it is
    let mut bench = left(|b| {
        b.memory[STARTS[1] + 22] = 1;
        b.memory[STARTS[2] + 22] = 2;
    });
    for (behind, number) in [(&[][..], 1), (&[0xBB, 0x00], 2), (&[0x41], 3)] {
        let input = [&INVENTORY, behind].concat();
        let next = bench.next;
        assert_eq!(bench.call(&input), number);
        assert_eq!((bench.next, bench.length), (next, 0));
        bench.cursor = 7;
    }
    // no longer matching: bit 126 set
    let mut bench = left(|b| b.selection = select(0x01, 126, 1, &[0x80]));
    answers(&mut bench, &INVENTORY, C);
    assert_eq!(bench.call(&INVENTORY), 1);
    // the first was handed out, and does not come again
    let mut bench = left(|b| b.selection = select(0x01, 127, 1, &[0x00]));
    answers(&mut bench, &INVENTORY, C);
    assert_eq!(bench.call(&INVENTORY), 1);
}

/// "then takes the next command": with it nothing is left, and no tag that comes to match later is
/// handed out for the inventory before it.
#[test]
fn no_stale_hand_out() {
    let mut bench = three();
    bench.selection = PUBLISHED[5..24].to_vec();
    let all = frame(0x0C, &select(0x01, 0, 0, &[]));
    let input = [&INVENTORY, &all[..]].concat();
    answers(&mut bench, &input, A);
    answers(&mut bench, &input, &hex(&SELECTED));
    assert_eq!(bench.call(&input), 1);
}

/// Any command does it, be it refused; and an inventory that finds none.
#[test]
fn no_stale_hand_out_after_any_command() {
    let wrong_kill = frame(0x65, &[0, 0, 0, 1]);
    let unknown = frame(0x77, &[]);
    let not_taken = frame(0x0C, &[]);
    let odd_inventory = frame(0x22, &[0]);
    let lock = lock_frame(0x020080);
    for command in [
        &READ[..],
        &WRITE,
        &lock,
        &KILL,
        &wrong_kill,
        &PUBLISHED,
        &not_taken,
        &odd_inventory,
        &unknown,
        &INVENTORY,
    ] {
        let mut bench = three();
        answers(&mut bench, &INVENTORY, A);
        // all are out of the field for one call
        for start in STARTS {
            bench.memory[start + 22] = 2;
        }
        bench.cursor = 0;
        assert_eq!(bench.call(command), 0);
        assert_eq!(bench.next, NONE_TO_HAND_OUT);
        for start in STARTS {
            bench.memory[start + 22] = 0;
        }
        assert_eq!(bench.call(command), 1, "{command:02X?}");
    }
}

/// A start with tags to hand out: from the number on, and none where it is beyond the last tag.
#[test]
fn start_in_the_middle() {
    for (next, frames) in [
        (0, &[A, B, C][..]),
        (1, &[B, C]),
        (2, &[C]),
        (3, &[]),
        (15, &[]),
        (NONE_TO_HAND_OUT, &[]),
        (u64::MAX, &[]),
    ] {
        let mut bench = three();
        bench.next = next;
        for frame in frames {
            answers(&mut bench, &[], frame);
        }
        assert_eq!(bench.call(&[]), 1, "{next}");
    }
}
