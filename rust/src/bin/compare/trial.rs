//! One trial: a crate with its row of calls.

use crate::pair::{Different, Pair};
use crate::seen::{Seen, Situation};
use poldrisk::generator::crates::image_at;
use poldrisk::generator::starts::{crate_input, start};
use poldrisk::generator::{lock_anew, Random};
use poldrisk::packed::{LIST_FULL, NONE_TO_HAND_OUT};

/// An inventory with PL 0, which alone hands out tags.
pub const INVENTORY: [u8; 7] = [0xBB, 0x00, 0x22, 0x00, 0x00, 0x22, 0x7E];

pub struct Trial<'a> {
    pub random: Random,
    pub pair: Pair,
    pub seen: &'a mut Seen,
    pub calls: u64,
    /// The answer of the last call that was no acknowledge.
    pub last: Option<u64>,
    /// Whether an acknowledge has freed places of this list.
    pub freed: bool,
}

impl Trial<'_> {
    pub fn new(mut random: Random, seen: &mut Seen) -> Trial<'_> {
        let bench = start(&mut random);
        let pair = Pair::new(&mut random, bench);
        Trial {
            random,
            pair,
            seen,
            calls: 0,
            last: None,
            freed: false,
        }
    }

    /// Several inputs on one crate.
    pub fn run(&mut self) -> Result<(), Different> {
        self.count_next();
        for _ in 0..self.random.between(1, 12) {
            match self.random.below(10) {
                0 | 1 => self.row_of_locks()?,
                2 | 3 => self.interrupted_hand_out()?,
                _ => self.one_input()?,
            }
            if self.random.percent(10) {
                self.wrong_shapes()?;
            }
            self.bring_back();
            self.perhaps_another_list();
        }
        Ok(())
    }

    pub fn call(&mut self, input: &[u8]) -> Result<u64, Different> {
        let selected = self.pair.bench.selection.len();
        let held = self.pair.bench.held;
        let number = self.pair.call(input)?;
        self.calls += 1;
        self.last = Some(number);
        self.seen.answer(number, self.pair.bench.reason);
        self.count_list(number, self.pair.bench.held > held, input);
        if self.pair.bench.selection.len() < selected {
            self.seen.add(Situation::ShorterSelection);
        }
        Ok(number)
    }

    fn count_next(&mut self) {
        let tags = self.pair.bench.places.len() as u64;
        let next = self.pair.bench.next;
        self.seen.add(match next {
            NONE_TO_HAND_OUT => Situation::NextNone,
            _ if next > NONE_TO_HAND_OUT => Situation::NextAboveNone,
            _ if next < tags => Situation::NextATag,
            _ => Situation::NextBehindTheTags,
        });
    }

    /// Any input, from its start or elsewhere.
    fn one_input(&mut self) -> Result<(), Different> {
        let bench = &self.pair.bench;
        let input = crate_input(&mut self.random, &bench.memory, &bench.places);
        let cursor = start_cursor(&mut self.random, &input);
        self.pair.change(|bench| bench.cursor = cursor);
        self.walk(&input)
    }

    /// Walks an input to its end, and one call beyond. "The bound on calls, from a start with none to
    /// hand out, grows by 15 for each accepted inventory"; what is to hand out at the start adds to it.
    fn walk(&mut self, input: &[u8]) -> Result<(), Different> {
        let bench = &self.pair.bench;
        let to_hand_out = (bench.places.len() as u64).saturating_sub(bench.next);
        let mut most = (input.len() as u64).saturating_sub(bench.cursor) + to_hand_out;
        // by the last inventory, as long as nothing else was taken
        let mut handed_out = 0;
        loop {
            self.perhaps_acknowledge(4)?;
            let at = self.pair.bench.cursor;
            let number = self.call(input)?;
            if number == LIST_FULL && self.makes_room()? {
                continue;
            }
            if number != 0 && number != 3 {
                // an acknowledge asks for nothing that a call is refused for
                return self.perhaps_acknowledge(if number >= 10 { 60 } else { 15 });
            }
            if self.pair.bench.cursor > at {
                let inventory = number == 0 && input[at as usize..].starts_with(&INVENTORY);
                handed_out = u64::from(inventory);
                most += 15 * handed_out;
            } else if handed_out > 0 {
                handed_out += 1;
            }
            if handed_out == 16 {
                self.seen.add(Situation::SixteenFromOneInventory);
            }
            let Some(left) = most.checked_sub(1) else {
                let what = format!("more calls than the bound, on input {input:02X?}");
                return Err(Different(what));
            };
            most = left;
        }
    }

    /// Locks one by one, each on lock bits of its own: what a Lock may ask of a region comes too seldom
    /// among all other commands, and a row on the same bits would soon have every pair permalocked.
    fn row_of_locks(&mut self) -> Result<(), Different> {
        let [place] = self.pair.bench.places[..] else {
            return self.one_input();
        };
        if image_at(&self.pair.bench.memory, place).len() < 24 {
            return self.one_input();
        }
        for _ in 0..12 {
            let random = &mut self.random;
            let mut input = Vec::new();
            self.pair.change(|bench| {
                let from = place.0 as usize;
                let image = &mut bench.memory[from..from + place.1 as usize];
                input = lock_anew(random, image);
                bench.cursor = 0;
            });
            self.walk(&input)?;
        }
        Ok(())
    }

    /// Killed tags are brought back now and then, so that later calls see more than their state.
    fn bring_back(&mut self) {
        let random = &mut self.random;
        self.pair.change(|bench| {
            for (from, size) in bench.places.clone() {
                let image = image_at(&bench.memory, (from, size));
                if image.get(22) == Some(&1) && random.percent(60) {
                    bench.memory[from as usize + 22] = 0;
                }
            }
        });
    }
}

fn start_cursor(random: &mut Random, input: &[u8]) -> u64 {
    let n = input.len() as u64;
    match random.below(20) {
        0 => n,
        1 => random.pick(&[n + 1, n + 2, u64::MAX, u64::MAX - 1, 1 << 32, 1 << 63]),
        2 => random.number() % (n + 1),
        _ => 0,
    }
}
