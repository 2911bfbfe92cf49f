//! The list of failures: acknowledges between the calls, and what is seen of it.

use crate::pair::Different;
use crate::seen::Situation;
use crate::trial::Trial;
use poldrisk::generator::lists::{acknowledged, list};
use poldrisk::packed::{ACKNOWLEDGED, CURSOR, HELD, LIST_FULL, RECORD_LENGTH};

impl Trial<'_> {
    /// An acknowledge of none, some or all records, or of too many.
    pub fn acknowledge(&mut self) -> Result<u64, Different> {
        let count = acknowledged(&mut self.random, self.pair.bench.held);
        let number = self.pair.acknowledge(count)?;
        self.calls += 1;
        self.seen.answer(number, 0);
        if number == ACKNOWLEDGED && count > 0 {
            self.freed = true;
            if let Some(situation) = self.last.and_then(after) {
                self.seen.add(situation);
            }
        }
        Ok(number)
    }

    pub fn perhaps_acknowledge(&mut self, percent: usize) -> Result<(), Different> {
        if self.random.percent(percent) {
            self.acknowledge()?;
        }
        Ok(())
    }

    /// Acknowledges some of a full list. Says whether it has room now: it may have had none to sign for.
    pub fn makes_room(&mut self) -> Result<bool, Different> {
        self.perhaps_acknowledge(90)?;
        Ok(!self.pair.is_list_full())
    }

    /// Another list, mostly where the one there is lets no call through.
    pub fn perhaps_another_list(&mut self) {
        let percent = if self.pair.is_list_full() { 70 } else { 10 };
        if self.random.percent(percent) {
            let (records, held) = list(&mut self.random);
            self.pair
                .change(|bench| (bench.records, bench.held) = (records, held));
            self.freed = false;
        }
    }

    /// Counts what a call with this number meant for the list.
    pub fn count_list(&mut self, number: u64, is_added: bool, input: &[u8]) {
        if is_added && self.freed {
            self.seen.add(Situation::FreedPlaceUsedAgain);
        }
        let is_full = self.pair.is_list_full();
        if is_added && is_full {
            self.seen.add(Situation::LastPlaceUsed);
        }
        let situation = match number {
            LIST_FULL => self.instead_of_full(input),
            10 if is_full => Situation::Refused10WithFullList,
            11 if is_full => Situation::Refused11WithFullList,
            12 if is_full => Situation::Refused12WithFullList,
            13 if is_full => Situation::Refused13WithFullList,
            21 if is_full => Situation::Refused21WithFullList,
            22 if is_full => Situation::Refused22WithFullList,
            _ => return,
        };
        self.seen.add(situation);
    }

    /// What would have come with room for one record. The proved bench is asked, and not the model, so
    /// that no branch of the model counts as compared for it.
    fn instead_of_full(&self, input: &[u8]) -> Situation {
        let mut roomy = self.pair.proved.clone();
        roomy.records = vec![0; RECORD_LENGTH];
        roomy.state[HELD] = 0;
        let cursor = roomy.state[CURSOR];
        match roomy.call(input) {
            0 if roomy.state[CURSOR] == cursor => Situation::FullBeforeAHandOut,
            0 if roomy.output[2] == 0xFF => Situation::FullBeforeError,
            0 => Situation::FullBeforeGood,
            1 => Situation::FullBefore1,
            2 => Situation::FullBefore2,
            _ => Situation::FullBefore3,
        }
    }
}

/// Records taken off the list behind a call with this answer.
fn after(number: u64) -> Option<Situation> {
    Some(match number {
        0 => Situation::AcknowledgedAfter0,
        1 => Situation::AcknowledgedAfter1,
        2 => Situation::AcknowledgedAfter2,
        3 => Situation::AcknowledgedAfter3,
        10 => Situation::AcknowledgedAfter10,
        11 => Situation::AcknowledgedAfter11,
        12 => Situation::AcknowledgedAfter12,
        13 => Situation::AcknowledgedAfter13,
        14 => Situation::AcknowledgedAfter14,
        21 => Situation::AcknowledgedAfter21,
        22 => Situation::AcknowledgedAfter22,
        _ => return None,
    })
}
