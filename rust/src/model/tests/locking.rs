//! Every Lock of one region, alone and beside another.

use super::*;

/// The lock bits' shifts by region: kill, access, EPC, TID, User.
const SHIFTS: [usize; 5] = [8, 6, 4, 2, 0];

/// What becomes of a pair: a row for each old pair and mask, a column for each action, both rising.
/// R refuses. The old pairs 00 and 10 have the permalock bit at 0 and take what is masked.
const PAIRS: [&str; 16] = [
    // old pair 00
    "0000", "0101", "0022", "0123", //
    // 01: a masked permalock bit must be set again, the password bit alone must be 0
    "1111", "R1R1", "11RR", "R1R1", //
    // 10
    "2222", "2323", "0022", "0123", //
    // 11: the same, and the password bit alone must be 1
    "3333", "R3R3", "RR33", "R3R3",
];

/// The pair by the table, or none for a refusal.
fn pair_by_table(old: usize, mask: usize, action: usize) -> Option<usize> {
    match PAIRS[4 * old + mask].as_bytes()[action] {
        b'R' => None,
        digit => Some(usize::from(digit - b'0')),
    }
}

/// A Lock on a bench with these lock bits. With none expected it is refused with C4, and else those
/// expected are stored; the frames are the published ones, and nothing else changes.
fn locks(old: usize, ld: usize, expected: Option<usize>) {
    let mut bench = fresh();
    set_double(&mut bench.memory, 20, old);
    let mut after = bench.clone();
    let input = lock_frame(ld);
    assert_eq!(bench.call(&input), 0);
    let answer = match expected {
        Some(bits) => {
            set_double(&mut after.memory, 20, bits);
            after.good = 1;
            tail_frame(0x82, None, 0xE2)
        }
        None => {
            after.error = 1;
            after.records[0] = record(0, 0x82, 0xC4);
            after.held = 1;
            tail_frame(0xFF, Some(0xC4), 0x23)
        }
    };
    after.output[..23].copy_from_slice(&answer);
    after.cursor = 14;
    after.length = 23;
    assert_eq!(bench, after, "lock bits {old:03X}, LD {ld:06X}");
}

/// Calls `with` for every region's shift and every old pair, mask and action of it.
fn each_field(with: impl Fn(usize, usize, usize, usize)) {
    for shift in SHIFTS {
        for asked in 0..64 {
            with(shift, asked >> 4, asked >> 2 & 3, asked & 3);
        }
    }
}

/// The 64 combinations of each region, the others not masked: their action bits are not looked at.
#[test]
fn lock_one_region() {
    each_field(|shift, old, mask, action| {
        let expected = pair_by_table(old, mask, action);
        for others in [0x000, 0x155, 0x2AA, 0x3FF] {
            let others = others & !(3 << shift);
            for rest in [0x000, 0x3FF & !(3 << shift)] {
                let ld = mask << (10 + shift) | rest | action << shift;
                let expected = expected.map(|pair| others | pair << shift);
                locks(others | old << shift, ld, expected);
            }
        }
    });
}

/// "Refusal of any region comes before any store": beside a region that refuses nothing is stored,
/// whichever of them stands first.
#[test]
fn lock_beside_a_refusal() {
    each_field(|shift, old, mask, action| {
        for other in SHIFTS.into_iter().filter(|other| *other != shift) {
            // permalock 1 lifted; password bit 0 set alone; password bit 1 lifted alone
            for (pair, masked, asked) in [(1, 1, 0), (3, 3, 2), (1, 2, 2), (3, 2, 1)] {
                let ld = (mask << shift | masked << other) << 10 | action << shift | asked << other;
                locks(old << shift | pair << other, ld, None);
            }
        }
    });
}

/// "makes this region's field ignored and the rest is carried out"
#[test]
fn lock_beside_a_change() {
    each_field(|shift, old, mask, action| {
        let expected = pair_by_table(old, mask, action);
        for other in SHIFTS.into_iter().filter(|other| *other != shift) {
            let ld = (mask << shift | 3 << other) << 10 | action << shift | 3 << other;
            let expected = expected.map(|pair| pair << shift | 3 << other);
            locks(old << shift | 2 << other, ld, expected);
        }
    });
}

/// The access pair permalocked again, with another password bit, beside the EPC pair: byte by byte.
#[test]
fn lock_repeated_permalock() {
    let input = [
        0xBB, 0x00, 0x82, 0x00, 0x07, 0x00, 0x00, 0xFF, 0xFF, 0x03, 0x80, 0x60, 0x6A, 0x7E,
    ];
    assert_eq!(lock_frame(0x038060), input);
    locks(0x0C0, 0x038060, Some(0x0E0));
    locks(0x040, 0x038060, Some(0x060));
    // without the permalock bit in the mask the password bit is not ignored
    locks(0x0C0, 0x028060, None);
    // the published one, on a permalocked pair
    locks(0x0C0, 0x020080, Some(0x0C0));
    locks(0x040, 0x020080, None);
}

/// "Mask touches User and User has 0 words: C3", before any region is looked at.
#[test]
fn lock_without_user_words() {
    // User alone; User permalocked again; beside a kill pair that refuses
    for (old, ld) in [(0x000, 0x000C03), (0x003, 0x000C03), (0x300, 0x040C03)] {
        let mut bench = fresh();
        set_double(&mut bench.memory, 16, 0);
        set_double(&mut bench.memory, 20, old);
        let image = bench.memory.clone();
        assert_eq!(bench.call(&lock_frame(ld)), 0);
        assert_eq!(bench.output[..23], tail_frame(0xFF, Some(0xC3), 0x22));
        assert_eq!(bench.memory, image);
    }
}
