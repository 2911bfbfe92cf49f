//! What the C interface refuses by itself, with 20 to 23, and a selection of more bytes than there are.
//! Each comes together with what a later test would refuse, so that the order shows.

use crate::pair::Different;
use crate::seen::Situation;
use crate::trial::{Trial, INVENTORY};
use poldrisk::packed::{
    Packed, COUNTS, COUNT_OUT_OF_RANGE, CURSOR, HELD, LENGTH, LIMIT, MOST_TAGS,
    PLACES_OUT_OF_RANGE, REASON, RECORDS_LENGTH_WRONG, SELECTED, STATE_LENGTH_WRONG,
};

impl Trial<'_> {
    /// The crate of the trial in one wrong shape, all else being within its range.
    pub fn wrong_shapes(&mut self) -> Result<(), Different> {
        let mut lent = self.pair.proved.clone();
        lent.state[COUNTS].fill(7);
        for number in &mut lent.places {
            *number = (*number).min(LIMIT);
        }
        lent.state[CURSOR] = INVENTORY.len() as u64 + 1;
        if self.random.percent(50) {
            lent.state[HELD] = u64::MAX;
        }
        match self.random.below(9) {
            0 => self.wrong_state_length(lent),
            1 => self.wrong_count(lent),
            2 => self.odd_places(lent),
            3 => self.far_place(lent),
            4 => self.far_behind_sixteen(lent),
            5 => self.wrong_records_length(lent),
            6 => self.acknowledge_wrong_state_length(lent),
            7 => self.acknowledge_wrong_records_length(lent),
            _ => self.long_selection(lent),
        }
    }

    /// One call that is refused under this number: nothing changes but length and reason, and these
    /// only under the paper's own numbers.
    fn refused(
        &mut self,
        mut lent: Packed,
        expected: u64,
        situation: Situation,
    ) -> Result<(), Different> {
        let mut left = lent.clone();
        if expected < STATE_LENGTH_WRONG {
            left.state[LENGTH] = 0;
            left.state[REASON] = 0;
        }
        let got = lent.call(&INVENTORY);
        self.leaves([got, expected], [lent, left], situation)
    }

    /// What came and what was left, each beside what is expected.
    fn leaves(
        &mut self,
        [got, expected]: [u64; 2],
        [lent, left]: [Packed; 2],
        situation: Situation,
    ) -> Result<(), Different> {
        self.calls += 1;
        if got != expected || lent != left {
            let what = format!("answer {got} for {expected}, left {lent:?}, for {left:?}");
            return Err(Different(what));
        }
        self.seen.answer(got, 0);
        self.seen.add(situation);
        Ok(())
    }

    /// A number of numbers that is no multiple of three: one too many, one too few, or less than a record.
    fn misfit_records(&mut self, lent: &mut Packed) {
        if lent.records.is_empty() || self.random.percent(50) {
            lent.records.push(0);
        } else {
            lent.records.pop();
        }
        if self.random.percent(30) {
            lent.records.truncate(self.random.between(1, 2));
        }
    }

    fn wrong_state_length(&mut self, mut lent: Packed) -> Result<(), Different> {
        lent.places.push(LIMIT + 1);
        lent.state[COUNTS.start] = LIMIT + 1;
        self.misfit_records(&mut lent);
        lent.state.resize(self.other_state_length(), u64::MAX);
        self.refused(lent, STATE_LENGTH_WRONG, Situation::StateLengthBeforeCount)
    }

    fn other_state_length(&mut self) -> usize {
        self.random.pick(&[0, 1, 2, 8, 11, 12, 14, 15, 26])
    }

    fn wrong_count(&mut self, mut lent: Packed) -> Result<(), Different> {
        lent.places.push(0);
        self.misfit_records(&mut lent);
        let count = self.random.between(COUNTS.start, COUNTS.end - 1);
        lent.state[count] = self.random.pick(&[LIMIT + 1, 1 << 33, 1 << 63, u64::MAX]);
        self.refused(lent, COUNT_OUT_OF_RANGE, Situation::CountBeforePlaces)
    }

    fn odd_places(&mut self, mut lent: Packed) -> Result<(), Different> {
        // also so many that the odd one stands behind the first 32
        if self.random.percent(30) {
            lent.places.resize(2 * self.random.between(16, 18), 0);
        }
        lent.places.push(0);
        self.misfit_records(&mut lent);
        self.refused(lent, PLACES_OUT_OF_RANGE, Situation::OddPlacesBeforeRecords)
    }

    fn far_place(&mut self, mut lent: Packed) -> Result<(), Different> {
        if lent.places.is_empty() || self.random.percent(20) {
            lent.places.resize(2 * self.random.between(1, 18), 0);
        }
        let at = self.random.below(lent.places.len().min(2 * MOST_TAGS));
        // cut to 32 bits it may be right
        let high = self.random.pick(&[1 << 32, 1 << 63, u64::MAX << 32]);
        lent.places[at] |= high;
        self.misfit_records(&mut lent);
        self.refused(lent, PLACES_OUT_OF_RANGE, Situation::FarPlaceBeforeRecords)
    }

    /// Numbers behind the sixteenth tag are not looked at: the tags are too many, and that is all.
    fn far_behind_sixteen(&mut self, mut lent: Packed) -> Result<(), Different> {
        lent.places.resize(2 * self.random.between(17, 19), 0);
        lent.places[2 * MOST_TAGS..].fill(u64::MAX);
        lent.state[CURSOR] = 0;
        self.refused(lent, 11, Situation::FarBehindSixteen)
    }

    /// More bytes than the selection has room for: some of these numbers would do if they were cut.
    fn long_selection(&mut self, mut lent: Packed) -> Result<(), Different> {
        let right = lent.state[SELECTED].min(39);
        let above = [40, 41, 47, 255, 256 + right, (1 << 32) + right, u64::MAX];
        lent.state[SELECTED] = self.random.pick(&above);
        let (number, situation) = if self.random.percent(50) {
            (10, Situation::SelectionAbove39BehindCursor)
        } else {
            lent.state[CURSOR] = 0;
            (11, Situation::SelectionAbove39)
        };
        self.refused(lent, number, situation)
    }

    fn wrong_records_length(&mut self, mut lent: Packed) -> Result<(), Different> {
        self.misfit_records(&mut lent);
        let situation = Situation::RecordsLengthBeforeCursor;
        self.refused(lent, RECORDS_LENGTH_WRONG, situation)
    }

    /// An acknowledge of any number that is refused for its shape: nothing changes at all.
    fn not_acknowledged(
        &mut self,
        mut lent: Packed,
        expected: u64,
        situation: Situation,
    ) -> Result<(), Different> {
        let left = lent.clone();
        let got = lent.acknowledge(self.random.pick(&[0, 1, u64::MAX]));
        self.leaves([got, expected], [lent, left], situation)
    }

    fn acknowledge_wrong_state_length(&mut self, mut lent: Packed) -> Result<(), Different> {
        self.misfit_records(&mut lent);
        lent.state.resize(self.other_state_length(), u64::MAX);
        let situation = Situation::AcknowledgeStateLengthBeforeRecords;
        self.not_acknowledged(lent, STATE_LENGTH_WRONG, situation)
    }

    fn acknowledge_wrong_records_length(&mut self, mut lent: Packed) -> Result<(), Different> {
        self.misfit_records(&mut lent);
        let situation = Situation::AcknowledgeRecordsLengthBeforeHeld;
        self.not_acknowledged(lent, RECORDS_LENGTH_WRONG, situation)
    }
}
