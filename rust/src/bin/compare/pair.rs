//! The proved bench and the model side by side.

use poldrisk::beside::{difference, model_call, packed_of, take_over_behind};
use poldrisk::generator::Random;
use poldrisk::model::Bench;
use poldrisk::packed::{Packed, ACKNOWLEDGED, SELECTION_LENGTH};

/// What is said of a call after which the two stand apart.
pub struct Different(pub String);

pub struct Pair {
    pub bench: Bench,
    pub proved: Packed,
    /// What all 39 bytes of the selection are to be; the model has only those that count.
    selection: [u8; SELECTION_LENGTH],
}

impl Pair {
    pub fn new(random: &mut Random, bench: Bench) -> Pair {
        let mut selection = [0; SELECTION_LENGTH];
        selection.fill_with(|| random.byte());
        let proved = packed_of(&bench, &selection);
        Pair {
            selection: proved.selection,
            bench,
            proved,
        }
    }

    /// Changes both alike, as a caller may between two calls.
    pub fn change(&mut self, how: impl FnOnce(&mut Bench)) {
        how(&mut self.bench);
        self.proved = packed_of(&self.bench, &self.selection);
        self.selection = self.proved.selection;
    }

    /// One call on both, and a look at all that it left.
    pub fn call(&mut self, input: &[u8]) -> Result<u64, Different> {
        let held = self.bench.held;
        let got = self.proved.call(input);
        let expected = model_call(&mut self.bench, input);
        // a Set Select that is taken stores its parameters in front, and the bytes behind them stay
        let known = self.bench.selection.iter();
        for (byte, known) in self.selection.iter_mut().zip(known) {
            *byte = *known;
        }
        if self.bench.held > held {
            take_over_behind(&self.proved, &mut self.bench);
        }
        self.compare([got, expected], || format!("a call on {input:02X?}"))
    }

    /// An acknowledge of both, and a look at all that it left.
    pub fn acknowledge(&mut self, count: u64) -> Result<u64, Different> {
        let got = self.proved.acknowledge(count);
        let expected = self.bench.acknowledge(count);
        if expected == ACKNOWLEDGED {
            take_over_behind(&self.proved, &mut self.bench);
        }
        self.compare([got, expected], || format!("an acknowledge of {count}"))
    }

    fn compare(
        &self,
        [got, expected]: [u64; 2],
        what: impl Fn() -> String,
    ) -> Result<u64, Different> {
        let field = match difference(&self.proved, &self.bench, &self.selection) {
            None if got == expected => return Ok(got),
            None => "answer",
            Some(field) => field,
        };
        let Packed {
            state,
            selection,
            records,
            ..
        } = &self.proved;
        Err(Different(format!(
            "{field}, after {}\n\
             proved bench: answer {got}, state {state:?}, selection {selection:02X?}, records {records:?}\n\
             model: answer {expected}, {:02X?}",
            what(),
            self.bench
        )))
    }

    /// Whether some tag may still be handed out.
    pub fn is_handing_out(&self) -> bool {
        self.bench.next < self.bench.places.len() as u64
    }

    /// Whether the list has no room for another record.
    pub fn is_list_full(&self) -> bool {
        self.bench.held >= self.bench.records.len() as u64
    }
}
