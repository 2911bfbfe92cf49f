//! Every finding rule with its reason, and the limit of each count.

use super::*;

#[test]
fn no_header() {
    drops(&[0x41], 1);
    drops(&[0x00, 0xBB, 0x00], 1);
    drops(&[0x7E], 1);
    drops(&[0xBA, 0x00, 0x22, 0x00, 0x00, 0x22, 0x7E], 1);
}

#[test]
fn wrong_type() {
    for kind in [0x01, 0x02, 0x03, 0xBB, 0xFF] {
        drops(&[0xBB, kind], 2);
        drops(&odd_frame(kind, &[], 0, 0), 2);
    }
}

#[test]
fn too_long() {
    drops(&[0xBB, 0x00, 0x22, 0x00, 0x51], 3);
    drops(&[0xBB, 0x00, 0x22, 0x01, 0x00], 3);
    drops(&[0xBB, 0x00, 0x22, 0xFF, 0xFF], 3);
    // whole and right but for its length
    drops(&odd_frame(0, &[0; 81], 0, 0), 3);
}

#[test]
fn wrong_check_and_wrong_end() {
    for pl in [0, 1, 80] {
        let parameters = vec![0x11; pl];
        for off in [1, 0x80, 0xFF] {
            drops(&odd_frame(0, &parameters, off, 0), 4);
            drops(&odd_frame(0, &parameters, 0, off), 5);
        }
        assert_eq!(fresh().call(&odd_frame(0, &parameters, 0, 0)), 0);
    }
}

/// "in the order of the finding rules, check before end"
#[test]
fn first_reason_is_given() {
    // no header before all others
    let mut bytes = odd_frame(1, &[0; 81], 1, 1);
    bytes[0] = 0xBC;
    drops(&bytes, 1);
    // type before too long, check and end
    drops(&odd_frame(1, &[0; 81], 1, 1), 2);
    drops(&odd_frame(2, &[], 1, 0), 2);
    drops(&odd_frame(2, &[], 0, 1), 2);
    // too long before check and end
    drops(&odd_frame(0, &[0; 81], 1, 0), 3);
    drops(&odd_frame(0, &[0; 81], 0, 1), 3);
    drops(&odd_frame(0, &[0; 81], 1, 1), 3);
    // check before end
    drops(&odd_frame(0, &[1, 2, 3, 4], 1, 1), 4);
}

/// "at the end of the input a false header may wait under answer 2"
#[test]
fn false_header_waits_at_the_end() {
    stays(&[], 1);
    let wrong = odd_frame(0, &[1, 2, 3], 1, 1);
    for there in 1..wrong.len() {
        stays(&wrong[..there], 2);
    }
    drops(&wrong, 4);
    // too long is known as soon as PL is there, wrong type as soon as the type is
    let long = odd_frame(0, &[0; 81], 0, 0);
    for there in 1..5 {
        stays(&long[..there], 2);
    }
    drops(&long[..5], 3);
    stays(&odd_frame(1, &[], 0, 0)[..1], 2);
    drops(&odd_frame(1, &[], 0, 0)[..2], 2);
}

/// "A drop takes exactly one byte": a frame inside a wrong one is found.
#[test]
fn reasons_along_an_input() {
    let inventory = frame(0x22, &[]);
    let mut input = vec![0x41, 0xBB, 0x01, 0xBB, 0x00, 0x22, 0xFF, 0x00];
    input.extend(odd_frame(0, &inventory, 1, 0));
    input.extend(odd_frame(0, &inventory, 0, 1));
    input.extend([0xBB, 0x00]);
    let mut bench = fresh();
    let mut reasons = Vec::new();
    let last = loop {
        let number = bench.call(&input);
        if number != 0 && number != 3 {
            break number;
        }
        reasons.push(bench.reason);
    };
    let noise = &[1, 2, 1, 3, 1, 1, 1, 1][..];
    let wrong_check = &[4, 1, 1, 1, 1, 0, 1, 1];
    let wrong_end = &[5, 1, 1, 1, 1, 0, 1, 1];
    assert_eq!(reasons, [noise, wrong_check, wrong_end].concat());
    assert_eq!((last, bench.reason), (2, 0));
    assert_eq!(bench.counts(), [2, 0, 18, 1, 1, 1, 1]);
    assert_eq!(bench.cursor, input.len() as u64 - 2);
}

/// One input for each of the seven counts, in their order: it raises that count.
fn raising() -> [Vec<u8>; 7] {
    [
        frame(0x22, &[]),
        frame(0x77, &[]),
        vec![0x41],
        vec![0xBB, 0x01],
        vec![0xBB, 0x00, 0x22, 0x01, 0x00],
        odd_frame(0, &[], 1, 0),
        odd_frame(0, &[], 0, 1),
    ]
}

/// "each under the limit of answer 13"
#[test]
fn each_count_has_the_limit() {
    for (place, input) in raising().iter().enumerate() {
        // one below the limit a count is still raised
        let mut counts = [FULL_COUNT - 1; 7];
        let mut bench = counting(counts);
        assert!([0, 3].contains(&bench.call(input)));
        counts[place] = FULL_COUNT;
        assert_eq!(bench.counts(), counts);
        // with any one at the limit none is, whatever comes
        for input in raising() {
            let mut bench = counting(counts);
            assert_eq!(bench.call(&input), 13);
            assert_eq!(bench, counting(counts));
        }
    }
}

/// "Tests in the order 10, 11, 12, 13, then the finding rules": a reason comes with the last alone.
#[test]
fn refusals_before_reasons() {
    let mut bench = counting([0, 0, 0, FULL_COUNT, 0, 0, 0]);
    bench.cursor = 2;
    bench.memory[1] = 2;
    bench.output.pop();
    // what is wrong is put right one by one, in the order of the tests
    let mends: [fn(&mut Bench); 4] = [
        |b| b.cursor = 0,
        |b| b.memory[1] = 1,
        |b| b.output.push(0),
        |b| b.dropped[1] = 0,
    ];
    for (number, mend) in (10..).zip(mends) {
        bench.reason = 3;
        let mut expected = bench.clone();
        expected.reason = 0;
        assert_eq!(bench.call(&[0x41]), number);
        assert_eq!(bench, expected);
        mend(&mut bench);
    }
    assert_eq!(bench.call(&[0x41]), 3);
    assert_eq!(bench.reason, 1);
}
