//! The bytes of commands.bin: from none to the limit of the file, mostly for pages of up to some dozen items.

use poldrisk::generator::starts::crate_input;
use poldrisk::generator::{command, damaged, frame, Random};
use poldrisk::model::sheet::MOST_COMMAND_BYTES;
use poldrisk::model::Bench;

/// Any input for these tags.
pub fn commands(random: &mut Random, images: &[Vec<u8>]) -> Vec<u8> {
    let mut growing = Growing::new(images);
    match random.below(50) {
        0 => {}
        1 => growing.input = random.bytes(1),
        2 => growing.cut_off(random),
        3..=7 => growing.without_failure(random),
        8..=11 => growing.only_drops(random),
        12 | 13 => growing.without_headers(random),
        14..=16 => growing.long(random, 8000),
        17..=20 => growing.dense(random),
        21..=32 => growing.pieces(random, 25),
        _ => growing.pieces(random, 6),
    }
    if random.percent(8) {
        growing.cut_off(random);
    }
    growing.input
}

/// An input that grows piece by piece, and a bench that takes each of them, so that later commands are
/// drawn for what the tags hold by then.
#[derive(Clone)]
struct Growing {
    bench: Bench,
    input: Vec<u8>,
}

impl Growing {
    fn new(images: &[Vec<u8>]) -> Growing {
        Growing {
            bench: Bench::of_tags(images),
            input: Vec::new(),
        }
    }

    fn add(&mut self, piece: &[u8]) {
        self.input.extend(piece);
        while [0, 3].contains(&self.bench.call(&self.input)) {
            self.bench.acknowledge(self.bench.held);
        }
    }

    /// Adds a piece, and takes it back where this is not so of what was before and is now.
    fn add_if(&mut self, piece: &[u8], keeps: impl Fn(&Bench, &Bench) -> bool) {
        let mut grown = self.clone();
        grown.add(piece);
        if keeps(&self.bench, &grown.bench) {
            *self = grown;
        }
    }

    fn drawn(&self, random: &mut Random) -> Vec<u8> {
        crate_input(random, &self.bench.memory, &self.bench.places)
    }

    /// Frames, damaged frames and noise. A piece after which no tag is left to be aimed at is mostly taken
    /// back: behind it all commands would fail alike.
    fn piece(&mut self, random: &mut Random) {
        let piece = self.drawn(random);
        let all = random.percent(15);
        self.add_if(&piece, |before, after| {
            all || before.aimed().is_none() || after.aimed().is_some()
        });
    }

    fn pieces(&mut self, random: &mut Random, most: usize) {
        for _ in 0..random.between(1, most) {
            self.piece(random);
        }
    }

    /// So long that the page has many rows of every kind.
    fn long(&mut self, random: &mut Random, most: usize) {
        let length = random.between(1000, most);
        // a piece may be taken back again and again
        for _ in 0..most {
            if self.input.len() >= length {
                return;
            }
            self.piece(random);
        }
    }

    /// Commands with good answers alone, as far as they are drawn.
    fn without_failure(&mut self, random: &mut Random) {
        for _ in 0..random.between(10, 60) {
            let piece = self.drawn(random);
            self.add_if(&piece, |before, after| {
                before.counts()[1..] == after.counts()[1..]
            });
        }
    }

    /// One damaged frame behind the other, mostly without a command between them.
    fn only_drops(&mut self, random: &mut Random) {
        for _ in 0..random.between(2, 14) {
            let (code, parameters) = command(random, &self.bench.memory);
            let piece = damaged(random, frame(code, &parameters));
            let any = random.percent(10);
            self.add_if(&piece, |before, after| {
                any || before.counts()[..2] == after.counts()[..2]
            });
        }
    }

    /// Long runs without BB, for items of many bytes, and pieces between them.
    fn without_headers(&mut self, random: &mut Random) {
        for _ in 0..random.between(1, 3) {
            let length = random.pick(&[63, 64, 65, 255, 1023, 1024, 1025, 4096]);
            let length = random.near(length);
            let noise = random.bytes(length);
            let noise: Vec<u8> = noise.iter().map(|b| b ^ u8::from(*b == 0xBB)).collect();
            self.add(&noise);
            self.piece(random);
        }
    }

    /// Short commands that fail, one behind the other or with a byte between them: as many items as there
    /// may be, up to the limit of the file.
    fn dense(&mut self, random: &mut Random) {
        let some = random.between(300, 12_000);
        let full = MOST_COMMAND_BYTES;
        let length = random.pick(&[some, full - 1, full, full + 1]);
        let apart = random.percent(70);
        while self.input.len() < length {
            let code = random.pick(&[0x00, 0x21, 0x77, 0xBB, 0xFF]);
            let failing = random.pick(&[(code, &[][..]), (0x22, &[0]), (0x65, &[0, 0, 0, 1])]);
            self.input.extend(frame(failing.0, failing.1));
            if apart {
                self.input.push(0x41);
            }
        }
        self.input.truncate(length);
    }

    /// Ends in the middle of its last frame.
    fn cut_off(&mut self, random: &mut Random) {
        let (code, parameters) = command(random, &self.bench.memory);
        let mut last = frame(code, &parameters);
        last.truncate(random.between(1, last.len() - 1));
        if self.input.len() + last.len() <= MOST_COMMAND_BYTES {
            self.input.extend(last);
        }
    }
}
