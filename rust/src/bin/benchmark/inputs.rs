//! The inputs of the workloads, of about so many bytes each.

use poldrisk::generator::{frame, sample_tag, Random};

/// Bytes without BB.
pub fn noise(size: usize) -> Vec<u8> {
    let mut random = Random::new(1);
    (0..size)
        .map(|_| match random.byte() {
            0xBB => 0x41,
            b => b,
        })
        .collect()
}

/// Whole rounds of frames, up to the size.
fn repeated(round: &[Vec<u8>], size: usize) -> Vec<u8> {
    let mut input = Vec::new();
    for next in round.iter().cycle() {
        if input.len() + next.len() > size {
            return input;
        }
        input.extend(next);
    }
    input
}

const RIGHT: [u8; 4] = [0x00, 0x00, 0xFF, 0xFF];

fn aimed(password: [u8; 4], bank: u8, pointer: u16, count: u16, data: &[u8]) -> Vec<u8> {
    let mut parameters = password.to_vec();
    parameters.push(bank);
    parameters.extend(pointer.to_be_bytes());
    parameters.extend(count.to_be_bytes());
    parameters.extend(data);
    parameters
}

/// All five commands on the sample tag. The Kill has a wrong password, so that the tag answers to
/// the end.
pub fn mix(size: usize) -> Vec<u8> {
    let mut round = aimed_commands();
    round.insert(0, frame(0x22, &[]));
    repeated(&round, size)
}

/// The same without the inventory.
pub fn mix_without_inventory(size: usize) -> Vec<u8> {
    repeated(&aimed_commands(), size)
}

fn aimed_commands() -> Vec<Vec<u8>> {
    let lock = [&RIGHT[..], &[0x02, 0x00, 0x80]].concat();
    vec![
        frame(0x39, &aimed(RIGHT, 3, 0, 2, &[])),
        frame(0x49, &aimed(RIGHT, 3, 4, 4, &[1, 2, 3, 4, 5, 6, 7, 8])),
        frame(0x82, &lock),
        frame(0x39, &aimed(RIGHT, 1, 0, 8, &[])),
        frame(0x65, &[0, 0, 0, 1]),
    ]
}

/// A false header every five bytes, with PL 80: each has a frame's whole length behind it, whose
/// check is wrong.
pub fn false_headers(size: usize) -> Vec<u8> {
    let mut input: Vec<u8> = [0xBB, 0x00, 0x11, 0x00, 0x50]
        .into_iter()
        .cycle()
        .take(size)
        .collect();
    // the last bytes are noise, so that no false header waits there for more; it starts where a
    // header would, so that none is cut and dropped for another reason
    let noise_from = size.saturating_sub(87) / 5 * 5;
    input[noise_from..].fill(0x41);
    input
}

/// Reads and Writes of 32 words.
pub fn longest(size: usize) -> Vec<u8> {
    let open = [0; 4];
    let round = [
        frame(0x39, &aimed(open, 3, 480, 32, &[])),
        frame(0x49, &aimed(open, 3, 480, 32, &[0x5A; 64])),
    ];
    repeated(&round, size)
}

/// Writes of the PC and 31 EPC words, with L at 31 and at 30.
pub fn epc_writes(size: usize) -> Vec<u8> {
    let write = |length: u8| {
        let mut data = [0x5A; 64];
        data[0] = length << 3;
        frame(0x49, &aimed([0; 4], 1, 1, 32, &data))
    };
    repeated(&[write(31), write(30)], size)
}

/// Inventories with PL 0.
pub fn inventories(size: usize) -> Vec<u8> {
    repeated(&[inventory()], size)
}

pub fn inventory() -> Vec<u8> {
    frame(0x22, &[])
}

/// Reads of two User words with the sample tag's password.
pub fn reads(size: usize) -> Vec<u8> {
    repeated(&[read()], size)
}

pub fn read() -> Vec<u8> {
    frame(0x39, &aimed(RIGHT, 3, 0, 2, &[]))
}

/// For each of the tags in turn a Set Select that means it alone, and a Read.
pub fn selected_reads(size: usize) -> Vec<u8> {
    let each = (0..16).flat_map(|tag| [frame(0x0C, &selection_of(tag)), read()]);
    repeated(&each.collect::<Vec<_>>(), size)
}

/// The parameters of a Set Select for the EPC of one of the sixteen tags, as the published one has them.
pub fn selection_of(tag: usize) -> Vec<u8> {
    let mut parameters = vec![0x01, 0, 0, 0, 0x20, 0x60, 0];
    parameters.extend(&sample_tag(tag)[36..48]);
    parameters
}
