//! Two runs on one crate whose hidden tags have other passwords in the one than in the other.

use crate::premises::Dropped;
use crate::starts::{
    image_mut, lock_passwords, nonzero, passwords_at, set_apart, set_passwords, some_tags, start,
    unlock,
};
use poldrisk::generator::Random;
use poldrisk::packed::{Packed, HELD, NEXT, RECORD_LENGTH, SELECTED};
use std::ops::Range;

pub struct Runs {
    pub two: [Packed; 2],
    /// The tags that meet the premises and differ; one of them lacks the premise that is dropped.
    pub hidden: Vec<usize>,
    /// Where their password bytes are, in the order of the memory, and what they are in each run.
    places: Vec<Range<usize>>,
    passwords: [Vec<[u8; 8]>; 2],
    dropped: Dropped,
}

impl Runs {
    /// Two runs that meet the premises, but for the one that is dropped.
    pub fn new(random: &mut Random, dropped: Dropped) -> Runs {
        let mut tags = some_tags(random);
        let mut hidden: Vec<usize> = (0..tags.places.len()).collect();
        let kept = random.between(1, hidden.len());
        while hidden.len() > kept {
            hidden.remove(random.below(hidden.len()));
        }
        for tag in &hidden {
            lock_passwords(random, image_mut(&mut tags, *tag));
        }
        let victim = random.pick(&hidden);
        unlock(random, image_mut(&mut tags, victim), dropped);
        let mut places: Vec<_> = hidden.iter().map(|tag| passwords_at(&tags, *tag)).collect();
        let one = start(random, &tags);
        let mut two = [one.clone(), one];
        let pool = [0; 3].map(|_| nonzero(random));
        for run in &mut two {
            set_passwords(random, run, &places, &pool);
            // what stands behind the records held is nobody's, and may be apart
            run.records.fill_with(|| random.number());
        }
        set_apart(random, &mut two[0], &tags, victim, dropped);
        places.sort_by_key(|place| place.start);
        Runs {
            passwords: [0, 1].map(|run| stored(&two[run], &places)),
            two,
            hidden,
            places,
            dropped,
        }
    }

    /// The access passwords of the hidden tags at the start, and the kill passwords.
    pub fn secrets(&self) -> (Vec<[u8; 4]>, Vec<[u8; 4]>) {
        let all = || self.passwords.iter().flatten();
        let access = all().map(|p| [p[4], p[5], p[6], p[7]]);
        let kill = all().map(|p| [p[0], p[1], p[2], p[3]]);
        (access.collect(), kill.collect())
    }

    /// Whether all that shows is the same, and the rest as it is claimed to be: the memories equal but
    /// for the password bytes, and these as they were. What was apart from the start is not asked.
    pub fn agree(&self) -> bool {
        let [one, other] = &self.two;
        let mut states = [one.state.clone(), other.state.clone()];
        let apart: &[usize] = match self.dropped {
            Dropped::OtherSelection => &[SELECTED, NEXT],
            Dropped::OtherTagsToHandOut => &[NEXT],
            Dropped::RecordsAtTheStart => &[HELD],
            _ => &[],
        };
        for number in apart {
            states.iter_mut().for_each(|state| state[*number] = 0);
        }
        one.output == other.output
            && states[0] == states[1]
            && one.places == other.places
            && (self.dropped == Dropped::RecordsAtTheStart || held(one) == held(other))
            && (self.dropped == Dropped::OtherSelection || one.selection == other.selection)
            && (self.dropped == Dropped::DifferElsewhere || self.same_elsewhere())
            && (0..2).all(|run| stored(&self.two[run], &self.places) == self.passwords[run])
    }

    fn same_elsewhere(&self) -> bool {
        let [one, other] = &self.two;
        let mut from = 0;
        for place in &self.places {
            if one.memory[from..place.start] != other.memory[from..place.start] {
                return false;
            }
            from = place.end;
        }
        one.memory[from..] == other.memory[from..]
    }

    /// The memory of one of the runs, most hidden tags with passwords that are neither's: commands drawn
    /// from it carry right passwords now and then, which the premises sort out, and not too often.
    pub fn decoy(&self, random: &mut Random) -> Vec<u8> {
        let mut memory = self.two[random.below(2)].memory.clone();
        for place in &self.places {
            if random.percent(80) {
                let other = random.bytes(8);
                memory[place.clone()].copy_from_slice(&other);
            }
        }
        memory
    }
}

/// The numbers of the records that a run's list holds.
fn held(run: &Packed) -> &[u64] {
    &run.records[..RECORD_LENGTH * run.state[HELD] as usize]
}

fn stored(run: &Packed, places: &[Range<usize>]) -> Vec<[u8; 8]> {
    let bytes = |place: &Range<usize>| run.memory[place.clone()].try_into();
    places
        .iter()
        .map(|place| bytes(place).expect("eight bytes"))
        .collect()
}
