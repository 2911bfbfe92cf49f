//! Which tag a command is for.

use super::*;

fn read_from(last: u8, check: u8) -> String {
    tag_frame(0x39, last, &[0x12, 0x34, 0x56, 0x78], check)
}

/// "the lowest-numbered present tag that matches"
#[test]
fn aim_at_the_lowest() {
    let mut bench = three();
    takes(&mut bench, &READ, &read_from(0x70, 0xB0));
    // killed, and out of the field
    bench.memory[22] = 1;
    takes(&mut bench, &READ, &read_from(0x71, 0xB1));
    bench.memory[STARTS[1] + 22] = 2;
    takes(&mut bench, &READ, &read_from(0x72, 0xB2));
    bench.memory[STARTS[2] + 22] = 1;
    takes(&mut bench, &READ, "BB 01 FF 00 01 09 0A 7E");
    // the order in the memory does not matter
    let mut bench = three();
    bench.places.reverse();
    takes(&mut bench, &READ, &read_from(0x72, 0xB2));
    // EPC bit 126, the last but one, set: the third alone; bit 127 clear: the first and the third
    let mut bench = three();
    bench.selection = select(0x01, 126, 1, &[0x80]);
    takes(&mut bench, &READ, &read_from(0x72, 0xB2));
    bench.selection = select(0x01, 127, 1, &[0x00]);
    takes(&mut bench, &READ, &read_from(0x70, 0xB0));
    bench.memory[22] = 2;
    takes(&mut bench, &READ, &read_from(0x72, 0xB2));
    // turned round: bit 127 not clear
    bench.selection = select(0x11, 127, 1, &[0x00]);
    takes(&mut bench, &READ, &read_from(0x71, 0xB1));
}

/// "A command aimed at one tag leaves all bytes of the others", and those outside all places.
#[test]
fn other_bytes_stay() {
    let lock = lock_frame(0x020080);
    let mut epc = vec![0x00, 0x00, 0xFF, 0xFF, 0x01, 0x00, 0x01];
    epc.extend([0x00, 0x01, 0x2C, 0x00]);
    let commands: [(&[u8], u8, u8); 4] = [
        (&WRITE, 0x49, 0xAA),
        (&lock, 0x82, 0xE3),
        (&KILL, 0x65, 0xC6),
        (&frame(0x49, &epc), 0x49, 0xAA),
    ];
    for (input, code, check) in commands {
        let mut bench = three();
        bench.memory.extend([0x5A; 9]);
        bench.selection = select(0x01, 127, 1, &[0x80]);
        // another User word, so that the Write shows
        bench.memory[STARTS[1] + 54] = 0xFF;
        let before = bench.memory.clone();
        takes(&mut bench, input, &tag_frame(code, 0x71, &[0], check));
        assert_ne!(bench.memory[86..172], before[86..172]);
        assert_eq!(bench.memory[..86], before[..86]);
        assert_eq!(bench.memory[172..], before[172..]);
    }
}

/// A killed tag is no longer the lowest present one.
#[test]
fn kill_one_by_one() {
    let mut bench = three();
    for (last, check) in [(0x70, 0xC5), (0x71, 0xC6), (0x72, 0xC7)] {
        takes(&mut bench, &KILL, &tag_frame(0x65, last, &[0], check));
    }
    takes(&mut bench, &KILL, "BB 01 FF 00 01 12 13 7E");
    assert_eq!(inventory(&mut bench), [NO_TAG]);
}

/// "or answer as with no tag": 09, 10, 13, 12 and 15, and the tests for 17 still first.
#[test]
fn no_tag() {
    let lock = lock_frame(0x020080);
    let mut nobody = three();
    // a turned empty mask matches none
    nobody.selection = select(0x11, 0, 0, &[]);
    let mut absent = three();
    for start in STARTS {
        absent.memory[start + 22] = 2;
    }
    for mut bench in [Bench::of_tags(&[]), nobody, absent] {
        let memory = bench.memory.clone();
        takes(&mut bench, &READ, "BB 01 FF 00 01 09 0A 7E");
        takes(&mut bench, &WRITE, "BB 01 FF 00 01 10 11 7E");
        takes(&mut bench, &lock, "BB 01 FF 00 01 13 14 7E");
        takes(&mut bench, &KILL, "BB 01 FF 00 01 12 13 7E");
        takes(&mut bench, &INVENTORY, NO_TAG);
        for code in [0x39, 0x49, 0x82, 0x65, 0x0C, 0x77] {
            takes(&mut bench, &frame(code, &[0x01]), WRONG);
        }
        takes(&mut bench, &frame(0x22, &[0x00]), WRONG);
        let bank_4 = [0, 0, 0xFF, 0xFF, 4, 0, 0, 0, 1];
        takes(&mut bench, &frame(0x39, &bank_4), WRONG);
        takes(&mut bench, &lock_frame(0x120080), WRONG);
        assert_eq!(bench.memory, memory);
        assert_eq!(bench.next, NONE_TO_HAND_OUT);
    }
}
