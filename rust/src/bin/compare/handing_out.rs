//! Inventories with something between the calls that hand out their tags.

use crate::pair::Different;
use crate::seen::Situation;
use crate::trial::{Trial, INVENTORY};
use poldrisk::generator::crates::image_at;
use poldrisk::generator::lists::held_above;
use poldrisk::generator::selections::select_parameters;
use poldrisk::generator::starts::{raw_next, selection};
use poldrisk::generator::{command, frame};
use poldrisk::model::Bench;
use poldrisk::packed::{ACKNOWLEDGED, LIMIT, LIST_FULL, NONE_TO_HAND_OUT};

impl Trial<'_> {
    /// An inventory, or a hand-out that goes on from any number, and what comes of it.
    pub fn interrupted_hand_out(&mut self) -> Result<(), Different> {
        let (more, behind) = self.something_to_find();
        let input = [&INVENTORY[..], &more].concat();
        let next = match self.random.percent(70) {
            true => NONE_TO_HAND_OUT,
            false => raw_next(&mut self.random),
        };
        self.pair.change(|bench| {
            bench.cursor = 0;
            bench.next = next;
        });
        for _ in 0..self.random.between(4, 40) {
            if self.pair.is_handing_out() && self.random.percent(40) {
                self.something_between(&input)?;
            }
            let at = self.pair.bench.cursor;
            let number = self.call(&input)?;
            if number == LIST_FULL && self.makes_room()? {
                continue;
            }
            if number == 0 && at == 7 && self.pair.bench.cursor == 7 {
                self.seen.add(behind);
            }
            if number >= 10 || (number > 0 && !self.pair.is_handing_out()) {
                break;
            }
        }
        Ok(())
    }

    /// What may stand at the cursor, and the situation of a tag handed out before it.
    fn something_to_find(&mut self) -> (Vec<u8>, Situation) {
        let random = &mut self.random;
        let bench = &self.pair.bench;
        let image = match bench.places.len() {
            0 => &[],
            tags => image_at(&bench.memory, bench.places[random.below(tags)]),
        };
        let (code, parameters) = match random.below(3) {
            0 => (0x0C, select_parameters(random, image)),
            1 => (0x22, Vec::new()),
            _ => command(random, image),
        };
        let mut bytes = frame(code, &parameters);
        match random.below(4) {
            0 => (Vec::new(), Situation::HandedOutAtTheEnd),
            1 => {
                bytes.truncate(random.between(1, bytes.len() - 1));
                (bytes, Situation::HandedOutBeforeHalfAFrame)
            }
            2 => (vec![0x41], Situation::HandedOutBeforeNoise),
            _ => (bytes, Situation::HandedOutBeforeACommand),
        }
    }

    /// What a caller may do while tags are still to be handed out.
    fn something_between(&mut self, input: &[u8]) -> Result<(), Different> {
        match self.random.below(9) {
            0 | 1 => {
                let tag = self.random.below(self.pair.bench.places.len());
                let state = self.random.pick(&[0, 1, 2]);
                self.pair.change(|bench| set_state(bench, tag, state));
                self.seen.add(Situation::StateChangedBetween);
            }
            2 => {
                let bench = &self.pair.bench;
                let other = selection(&mut self.random, &bench.memory, &bench.places);
                self.pair.change(|bench| bench.selection = other);
                self.seen.add(Situation::SelectionChangedBetween);
            }
            3 => {
                let next = raw_next(&mut self.random);
                self.pair.change(|bench| bench.next = next);
                self.seen.add(Situation::NextChangedBetween);
            }
            4 => {
                let (other, _) = self.something_to_find();
                self.on_another_input(&other)?;
                self.seen.add(Situation::InputChangedBetween);
            }
            5 | 6 => self.refused_between(input)?,
            7 => {
                if self.acknowledge()? == ACKNOWLEDGED {
                    self.seen.add(Situation::AcknowledgedBetween);
                }
            }
            _ => self.gone_between()?,
        }
        Ok(())
    }

    /// One call on another input from its start; then the cursor is back.
    fn on_another_input(&mut self, other: &[u8]) -> Result<u64, Different> {
        let cursor = self.pair.bench.cursor;
        self.pair.change(|bench| bench.cursor = 0);
        let number = self.call(other)?;
        self.pair.change(|bench| bench.cursor = cursor);
        Ok(number)
    }

    /// A call that is refused, by one of the tests 10 to 14. Then what was broken is put back, and all
    /// else is as that call left it.
    fn refused_between(&mut self, input: &[u8]) -> Result<(), Different> {
        let kept = self.pair.bench.clone();
        let [kind, way] = [5, 3].map(|n| self.random.below(n));
        let count = self.random.below(5);
        let above = held_above(&mut self.random, kept.records.len());
        self.pair.change(|bench| match (kind, way) {
            (0, _) => bench.cursor = input.len() as u64 + 1,
            (1, 0) => bench.selection = vec![0x01],
            (1, 1) => bench.places.push(bench.places[0]),
            (1, _) => bench.places[0].1 += 1,
            (2, _) => bench.output.truncate(135),
            (3, 0) => bench.good = LIMIT,
            (3, 1) => bench.error = LIMIT,
            (3, _) => bench.dropped[count] = LIMIT,
            (_, 0) => bench.held = bench.records.len() as u64,
            (_, 1) => bench.held = above,
            (_, _) => bench.records.truncate(bench.held as usize),
        });
        let number = self.call(input)?;
        match number {
            10 => self.seen.add(Situation::Refused10Between),
            11 => self.seen.add(Situation::Refused11Between),
            12 => self.seen.add(Situation::Refused12Between),
            13 => self.seen.add(Situation::Refused13Between),
            14 => self.seen.add(Situation::Refused14Between),
            _ => {}
        }
        self.pair.change(|bench| match kind {
            0 => bench.cursor = kept.cursor,
            1 => (bench.selection, bench.places) = (kept.selection, kept.places),
            2 => bench.output = kept.output,
            3 => (bench.good, bench.error, bench.dropped) = (kept.good, kept.error, kept.dropped),
            _ => (bench.records, bench.held) = (kept.records, kept.held),
        });
        Ok(())
    }

    /// All tags are out of the field for one call, which goes on with the finding rules; then they are
    /// back. An accepted command ended the hand-out; nothing else did.
    fn gone_between(&mut self) -> Result<(), Different> {
        let bench = &self.pair.bench;
        let state_at = |place| image_at(&bench.memory, place).get(22).copied();
        let states = bench.places.iter().map(|place| state_at(*place));
        let states: Vec<u8> = states.map(|state| state.unwrap_or(0)).collect();
        self.pair.change(|bench| {
            (0..states.len()).for_each(|tag| set_state(bench, tag, 2));
        });
        let (other, _) = self.something_to_find();
        let selects = other.get(2) == Some(&0x0C);
        let good = self.pair.bench.good;
        let first = self.on_another_input(&other)?;
        if first == 0 && selects && self.pair.bench.good > good {
            self.seen.add(Situation::NoneLeftThenSelectTaken);
        }
        self.pair.change(|bench| {
            for (tag, state) in states.iter().enumerate() {
                set_state(bench, tag, *state);
            }
        });
        let second = self.on_another_input(&[])?;
        self.count_gone(first, second);
        Ok(())
    }

    /// Counts the answer while all tags were gone, and the one to an empty input when they were back.
    fn count_gone(&mut self, first: u64, second: u64) {
        let (then, resumed) = match first {
            0 => (Situation::NoneLeftThen0, None),
            1 => (Situation::NoneLeftThen1, Some(Situation::ResumedAfter1)),
            2 => (Situation::NoneLeftThen2, Some(Situation::ResumedAfter2)),
            3 => (Situation::NoneLeftThen3, Some(Situation::ResumedAfter3)),
            _ => return,
        };
        self.seen.add(then);
        match (resumed, second) {
            (Some(resumed), 0) => self.seen.add(resumed),
            (None, 1) => self.seen.add(Situation::NotResumedAfter0),
            _ => {}
        }
    }
}

/// Puts a tag into the field or out of it, where its image is in the memory.
fn set_state(bench: &mut Bench, tag: usize, state: u8) {
    let place = bench.places[tag];
    if image_at(&bench.memory, place).len() > 22 {
        bench.memory[place.0 as usize + 22] = state;
    }
}
