//! What Set Select takes, and what it answers.

use super::*;

/// It looks at no tag: with one, with three and with none the published answer comes.
#[test]
fn published_select() {
    for tags in [vec![], vec![tag_a()], vec![tag_c(), tag_b(), tag_a()]] {
        let mut bench = Bench::of_tags(&tags);
        let mut after = bench.clone();
        assert_eq!(bench.call(&PUBLISHED), 0);
        after.output[..8].copy_from_slice(&SELECTED);
        after.selection = PUBLISHED[5..24].to_vec();
        (after.length, after.cursor, after.good) = (8, 26, 1);
        assert_eq!(bench, after);
    }
}

/// "anything else, or the Reserved bank, is plain 17", and the selection stays
#[test]
fn select_not_taken() {
    for parameters in not_taken() {
        for selection in [vec![], select(0x13, 5, 3, &[0xE0])] {
            let mut bench = three();
            bench.selection.clone_from(&selection);
            takes(&mut bench, &frame(0x0C, &parameters), WRONG);
            assert_eq!(bench.selection, selection);
            assert_eq!((bench.good, bench.error), (0, 1));
        }
    }
}

/// All six SelParams, and a mask of every length in its whole bytes.
#[test]
fn select_taken() {
    for sel_param in [0x01, 0x02, 0x03, 0x11, 0x12, 0x13] {
        for bits in 0..=255u8 {
            let mask = vec![0xA5; usize::from(bits).div_ceil(8)];
            let parameters = select(sel_param, u32::MAX, bits, &mask);
            let mut bench = three();
            takes(&mut bench, &frame(0x0C, &parameters), &hex(&SELECTED));
            assert_eq!(bench.selection, parameters);
        }
    }
}

/// The last one holds.
#[test]
fn select_again() {
    let mut bench = three();
    takes(&mut bench, &PUBLISHED, &hex(&SELECTED));
    assert_eq!(inventory(&mut bench), [A]);
    let empty = frame(0x0C, &select(0x01, 0, 0, &[]));
    takes(&mut bench, &empty, &hex(&SELECTED));
    assert_eq!(inventory(&mut bench), [A, B, C]);
}
