//! The CRC word: what it is, and how a Write keeps it.

use super::*;

/// The sample tag's EPC bank, and what a Write leaves there.
const EPC_BANK: std::ops::Range<usize> = 32..48;

fn epc_bank(words: [u16; 8]) -> Vec<u8> {
    words.iter().flat_map(|w| w.to_be_bytes()).collect()
}

/// A Write to the sample tag's EPC bank with its password.
fn epc_write(pointer: u16, words: &[u16]) -> Vec<u8> {
    let mut parameters = vec![0x00, 0x00, 0xFF, 0xFF, 0x01];
    parameters.extend(pointer.to_be_bytes());
    parameters.extend((words.len() as u16).to_be_bytes());
    parameters.extend(words.iter().flat_map(|w| w.to_be_bytes()));
    frame(0x49, &parameters)
}

/// The sample tag with L at 5: its last EPC word stands behind the EPC.
fn shortened() -> Bench {
    let mut bench = fresh();
    let words = [
        0x9ADC, 0x2C00, 0x3075, 0x1FEB, 0x705C, 0x5904, 0xE3D5, 0x0D70,
    ];
    bench.memory[EPC_BANK].copy_from_slice(&epc_bank(words));
    bench
}

/// A good Write to the EPC bank: only that bank changes, to these words.
fn writes_epc(mut bench: Bench, pointer: u16, words: &[u16], bank: [u16; 8]) {
    let mut image = bench.memory.clone();
    image[EPC_BANK].copy_from_slice(&epc_bank(bank));
    assert_eq!(bench.call(&epc_write(pointer, words)), 0);
    assert_eq!(bench.counts(), [1, 0, 0, 0, 0, 0, 0]);
    assert_eq!(bench.memory, image, "{words:04X?} from word {pointer} on");
}

/// The whole sample image as the paper has it from this change on, and its frame that stays.
#[test]
fn sample_crc_word() {
    let mut bench = fresh();
    let words = [
        0x3A76, 0x3400, 0x3075, 0x1FEB, 0x705C, 0x5904, 0xE3D5, 0x0D70,
    ];
    assert_eq!(bench.memory[EPC_BANK], epc_bank(words));
    assert_eq!(bench.call(&[0xBB, 0x00, 0x22, 0x00, 0x00, 0x22, 0x7E]), 0);
    let frame = [
        0xBB, 0x02, 0x22, 0x00, 0x11, 0xC9, 0x34, 0x00, 0x30, 0x75, 0x1F, 0xEB, 0x70, 0x5C, 0x59,
        0x04, 0xE3, 0xD5, 0x0D, 0x70, 0x3A, 0x76, 0xEF, 0x7E,
    ];
    assert_eq!(bench.output[..24], frame);
}

/// "An image with another word 0 is bad (11)", be it one bit; so is one with another PC or EPC.
#[test]
fn another_crc_word_is_bad() {
    for bit in 0..8 * 16 {
        // the PC's top five bits say how many words count, and are left out here
        if (16..21).contains(&bit) {
            continue;
        }
        let mut bench = fresh();
        bench.memory[32 + bit / 8] ^= 0x80 >> (bit % 8);
        let before = bench.clone();
        assert_eq!(bench.call(&frame(0x22, &[])), 11, "bit {bit}");
        assert_eq!(bench, before);
    }
    // the word of the image before this change, not complemented, and low byte first
    for word in [0x0000, 0xC589, 0x763A] {
        let mut bench = fresh();
        set_double(&mut bench.memory, 32, word);
        assert_eq!(bench.call(&[0x41]), 11);
    }
    // a word behind the EPC does not count
    let mut bench = shortened();
    bench.memory[47] ^= 1;
    assert_eq!(bench.call(&[]), 1);
}

/// The bank's words behind "stores the new CRC": PC and EPC as written, L from the new PC.
#[test]
fn write_keeps_the_crc_word() {
    let [a, b, c, d, e, f] = [0x3075, 0x1FEB, 0x705C, 0x5904, 0xE3D5, 0x0D70];
    // the same L, also with another low bit of the PC
    writes_epc(fresh(), 1, &[0x3000], [0xC7D3, 0x3000, a, b, c, d, e, f]);
    writes_epc(fresh(), 1, &[0x3401], [0x7F15, 0x3401, a, b, c, d, e, f]);
    // shorter, down to no EPC at all
    writes_epc(fresh(), 1, &[0x2C00], [0x9ADC, 0x2C00, a, b, c, d, e, f]);
    writes_epc(fresh(), 1, &[0x0000], [0xE2F0, 0x0000, a, b, c, d, e, f]);
    let short = [0x18E9, 0x0800, 0xAAAA, b, c, d, e, f];
    writes_epc(fresh(), 1, &[0x0800, 0xAAAA], short);
    // longer: the word that stood behind counts again
    writes_epc(
        shortened(),
        1,
        &[0x3400],
        [0x3A76, 0x3400, a, b, c, d, e, f],
    );
    // words of the EPC: within it, and up to its end
    let within = [0xA9B4, 0x3400, 0xAAAA, b, c, d, e, f];
    writes_epc(fresh(), 2, &[0xAAAA], within);
    let last = [0x217B, 0x3400, a, b, c, d, e, 0x1234];
    writes_epc(fresh(), 7, &[0x1234], last);
    let last = [0x17C3, 0x3400, a, b, c, d, 0x1234, 0x5678];
    writes_epc(fresh(), 6, &[0x1234, 0x5678], last);
    // up to its end, over it, and behind it
    let to_end = [0x5723, 0x2C00, a, b, c, d, 0x1234, f];
    writes_epc(shortened(), 6, &[0x1234], to_end);
    let over = [0x5723, 0x2C00, a, b, c, d, 0x1234, 0x5678];
    writes_epc(shortened(), 6, &[0x1234, 0x5678], over);
    let behind = [0x9ADC, 0x2C00, a, b, c, d, e, 0x1234];
    writes_epc(shortened(), 7, &[0x1234], behind);
}

/// A Write of a shorter L, byte by byte: the answer has the old tail, the next inventory the new word.
#[test]
fn write_then_inventory() {
    let mut input = vec![0xBB, 0x00, 0x49, 0x00, 0x0B, 0x00, 0x00, 0xFF, 0xFF, 0x01];
    input.extend([0x00, 0x01, 0x00, 0x01, 0x2C, 0x00, 0x81, 0x7E]);
    input.extend([0xBB, 0x00, 0x22, 0x00, 0x00, 0x22, 0x7E]);
    let mut bench = fresh();
    assert_eq!(bench.call(&input), 0);
    assert_eq!(bench.output[..23], tail_frame(0x49, None, 0xA9));
    assert_eq!(bench.call(&input), 0);
    let frame = [
        0xBB, 0x02, 0x22, 0x00, 0x0F, 0xC9, 0x2C, 0x00, 0x30, 0x75, 0x1F, 0xEB, 0x70, 0x5C, 0x59,
        0x04, 0xE3, 0xD5, 0x9A, 0xDC, 0x2E, 0x7E,
    ];
    assert_eq!(bench.length, 22);
    assert_eq!(bench.output[..22], frame);
    assert_eq!(bench.call(&input), 1);
}

/// A Write to the EPC bank that is refused with this byte: the image stays.
fn refuses_epc(mut bench: Bench, input: &[u8], error: u8, check: u8) {
    let image = bench.memory.clone();
    assert_eq!(bench.call(input), 0);
    assert_eq!(bench.output[..23], tail_frame(0xFF, Some(error), check));
    assert_eq!(bench.memory, image);
    assert_eq!(bench.counts(), [0, 1, 0, 0, 0, 0, 0]);
}

/// "A Write that names EPC word 0 answers B4 just after the lock check and before the length check."
#[test]
fn write_of_the_crc_word() {
    let b4 = |words: &[u16]| refuses_epc(fresh(), &epc_write(0, words), 0xB4, 0x13);
    // the word that stands there, another, and the one that would be right for the new PC
    b4(&[0x3A76]);
    b4(&[0x0000]);
    b4(&[0xC7D3, 0x3000]);
    // a new L that does not fit
    b4(&[0x0000, 0x3C00]);
    b4(&[0xFFFF; 8]);
    // range and password come before
    refuses_epc(fresh(), &epc_write(0, &[0; 9]), 0xB3, 0x12);
    let mut wrong = vec![0x00, 0x00, 0x00, 0x01, 0x01, 0x00, 0x00, 0x00, 0x01];
    wrong.extend([0x3A, 0x76]);
    refuses_epc(fresh(), &frame(0x49, &wrong), 0x16, 0x75);
    // the length check stays for a Write from the PC on
    refuses_epc(fresh(), &epc_write(1, &[0x3C00]), 0xB3, 0x12);
    // a locked bank has the same byte, and is left as it is
    let mut locked = fresh();
    set_double(&mut locked.memory, 20, 0x030);
    refuses_epc(locked.clone(), &epc_write(0, &[0x3A76]), 0xB4, 0x13);
    refuses_epc(locked, &epc_write(1, &[0x3400]), 0xB4, 0x13);
}

/// Word 0 of the other banks is as it was, and a Write there leaves the CRC word.
#[test]
fn write_of_word_0_elsewhere() {
    for (bank, at) in [(0u8, 24), (2, 48), (3, 54)] {
        let mut parameters = vec![0x00, 0x00, 0xFF, 0xFF, bank, 0x00, 0x00];
        parameters.extend([0x00, 0x01, 0xAB, 0xCD]);
        let mut bench = fresh();
        let mut image = bench.memory.clone();
        set_double(&mut image, at, 0xABCD);
        assert_eq!(bench.call(&frame(0x49, &parameters)), 0);
        assert_eq!(bench.output[..23], tail_frame(0x49, None, 0xA9));
        assert_eq!(bench.memory, image);
    }
}

/// The sample's word and the catalogue's check value of this CRC, and each table entry by single
/// bits.
#[test]
fn crc_by_bits() {
    assert_eq!(crc16(b"123456789"), 0xD64E);
    assert_eq!(crc16(&fresh().memory[34..48]), 0x3A76);
    for first in 0..=255u8 {
        let bytes = [first, 0x5A, first];
        let mut crc = 0xFFFFu16;
        for bit in 0..24 {
            let next = bytes[bit / 8] >> (7 - bit % 8) & 1 != 0;
            let carry = crc & 0x8000 != 0;
            crc = crc << 1 ^ if next != carry { 0x1021 } else { 0 };
        }
        assert_eq!(crc16(&bytes), !crc);
    }
}

/// "After every call a good image is good", whatever comes.
#[test]
fn good_stays_good() {
    let mut random = Random::new(4);
    let mut answered = 0;
    for _ in 0..300 {
        let mut bench = Bench::new(good_image(&mut random));
        for _ in 0..10 {
            assert!(is_good(&bench.memory));
            let input = input(&mut random, &bench.memory);
            bench.cursor = 0;
            while [0, 3].contains(&call_signing(&mut bench, &input)) {
                assert!(is_good(&bench.memory), "{input:02X?}");
                answered += u64::from(bench.length > 0);
            }
        }
    }
    assert!(answered > 1000);
}
