//! "An acknowledge call answers 16, removes the first n records, and the rest move up"

use super::*;

/// The first n go, the rest stand in front in their order.
#[test]
fn acknowledge_each_number() {
    for room in 0..6 {
        for held in 0..=room {
            for n in 0..=held {
                let mut bench = holding(room, held);
                assert_eq!(bench.acknowledge(n), 16);
                let expected: Vec<_> = (n..held).map(numbered).collect();
                assert_eq!(super::held(&bench), expected, "{n} of {held}");
                assert_eq!(bench.records.len() as u64, room);
            }
        }
    }
}

/// "n above the number held, or a number held above the room, is refused with 15"
#[test]
fn acknowledge_refused() {
    let cases = [
        (0, 0, 1),
        (0, 0, u64::MAX),
        (3, 0, 1),
        (3, 2, 3),
        (3, 3, 4),
        (3, 2, 1 << 32 | 2),
        (3, 3, u64::MAX),
        // also of none, and of as many as the room has
        (0, 1, 0),
        (0, 1, 1),
        (3, 4, 0),
        (3, 4, 3),
        (3, 4, 4),
        (3, 4, 5),
        (3, u64::MAX, 0),
        (3, u64::MAX, u64::MAX),
        (3, 1 << 32 | 3, 3),
    ];
    for (room, held, n) in cases {
        let mut bench = holding(room, held);
        bench.length = 23;
        bench.reason = 5;
        let before = bench.clone();
        assert_eq!(bench.acknowledge(n), 15, "{n} of {held} in {room}");
        assert_eq!(bench, before);
    }
}

/// "It makes no other test and touches nothing else", whatever a call would be refused for.
#[test]
fn acknowledge_touches_nothing_else() {
    let changes: [Change; 7] = [
        |_| (),
        |b| b.cursor = u64::MAX,
        |b| b.memory.clear(),
        |b| b.output.clear(),
        |b| b.dropped = [FULL_COUNT; 5],
        |b| b.good = u64::MAX,
        |b| b.selection = vec![0xFF; 40],
    ];
    for change in changes {
        let mut bench = holding(4, 3);
        bench.next = 0;
        bench.length = 23;
        bench.reason = 5;
        change(&mut bench);
        let mut expected = bench.clone();
        assert_eq!(bench.acknowledge(2), 16);
        expected.records[0] = numbered(2);
        expected.held = 1;
        // what stands behind is free
        expected.records[1..].copy_from_slice(&bench.records[1..]);
        assert_eq!(bench, expected);
    }
}

/// "freed places are used again", and so a full list takes further calls.
#[test]
fn freed_places_are_used_again() {
    let mut bench = holding(2, 2);
    let input = [0x41; 8];
    for n in [1, 2, 1, 1] {
        assert_eq!(bench.call(&input), 14);
        assert_eq!(bench.acknowledge(n), 16);
        for _ in 0..n {
            assert_eq!(bench.call(&input), 3);
        }
    }
    assert_eq!(held(&bench), [record(3, 1, 0), record(4, 1, 0)]);
    assert_eq!(bench.dropped[0], 5);
}

/// Between two tags of an inventory: the hand-out goes on.
#[test]
fn acknowledge_in_a_hand_out() {
    let mut bench = Bench {
        records: vec![Record::default(); 1],
        ..Bench::of_tags(&vec![sample_image(); 3])
    };
    let input = [&[0x41], &INVENTORY[..]].concat();
    assert_eq!(bench.call(&input), 3);
    for next in 1..4 {
        assert_eq!(bench.call(&input), 14);
        assert_eq!(bench.acknowledge(1), 16);
        assert_eq!(bench.call(&input), 0);
        assert_eq!((bench.next, bench.cursor), (next, 8));
        bench.held = 1;
    }
}
