//! "With the list full every call but acknowledge answers 14, tested after 13, and changes nothing"

use super::*;

/// Full lists: of no room, with each place taken, and with more held than there is room for.
fn full_lists() -> [(u64, u64); 9] {
    [
        (0, 0),
        (0, 1),
        (0, u64::MAX),
        (1, 1),
        (1, 2),
        (2, 2),
        (2, 3),
        (2, 1 << 32),
        (2, u64::MAX),
    ]
}

/// A call on a full list: length and reason of the call before go, and that is all.
fn waits(mut bench: Bench, input: &[u8]) {
    bench.length = 23;
    bench.reason = 5;
    let expected = Bench {
        length: 0,
        reason: 0,
        ..bench.clone()
    };
    assert_eq!(bench.call(input), 14, "{input:02X?}");
    assert_eq!(bench, expected, "{input:02X?}");
}

/// Before every finding rule: what would be answered well waits too, and so does an end of the input.
#[test]
fn full_before_the_finding_rules() {
    for (room, held) in full_lists() {
        for input in [&INVENTORY[..], &INVENTORY[..6], &[]] {
            waits(holding(room, held), input);
        }
        for (input, _, _) in failures() {
            waits(holding(room, held), &input);
        }
    }
}

/// Before the tags still to hand out.
#[test]
fn full_before_a_hand_out() {
    for (room, held) in full_lists() {
        let mut bench = holding(room, held);
        bench.next = 0;
        waits(bench.clone(), &[]);
        waits(bench.clone(), &INVENTORY);
        // with room the tag is there still
        bench.records = vec![numbered(0); 3];
        bench.held = 2;
        assert_eq!(bench.call(&[]), 0);
        assert_eq!((bench.output[1], bench.next), (2, 1));
    }
}

/// "tested after 13": what is wrong is put right one by one, in the order of the tests.
#[test]
fn full_after_the_other_refusals() {
    for (room, held) in full_lists() {
        let mut bench = holding(room, held);
        bench.cursor = 2;
        bench.memory[1] = 2;
        bench.output.pop();
        bench.error = FULL_COUNT;
        let mends: [Change; 4] = [
            |b| b.cursor = 0,
            |b| b.memory[1] = 1,
            |b| b.output.push(0),
            |b| b.error = 0,
        ];
        for (number, mend) in (10..).zip(mends) {
            let before = bench.clone();
            assert_eq!(bench.call(&[0x41]), number);
            assert_eq!(bench, before);
            mend(&mut bench);
        }
        waits(bench, &[0x41]);
    }
}

/// The last place is used, and good answers come as long as it is free.
#[test]
fn full_with_the_last_place() {
    for room in 1..4 {
        let mut bench = holding(room, room - 1);
        let input = [&INVENTORY[..], &INVENTORY, &[0x41], &INVENTORY].concat();
        for number in [0, 0, 3] {
            assert_eq!(bench.call(&input), number);
        }
        assert_eq!(bench.held, room);
        assert_eq!(bench.records[room as usize - 1], record(14, 1, 0));
        waits(bench, &input);
    }
}
