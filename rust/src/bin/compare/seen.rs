//! What came up in a run. A run in which something of it never came has compared less than it says.

use poldrisk::model::branch_counts;

/// Declares the situations that a run must meet beside the model's own branches.
macro_rules! situations {
    ($($name:ident)*) => {
        #[derive(Clone, Copy)]
        pub enum Situation { $($name),* }

        const SITUATIONS: &[&str] = &[$(stringify!($name)),*];
    };
}

situations! {
    // a tag was handed out while this stood at the cursor
    HandedOutAtTheEnd HandedOutBeforeHalfAFrame HandedOutBeforeNoise HandedOutBeforeACommand
    // what was changed while tags were still to be handed out
    StateChangedBetween SelectionChangedBetween NextChangedBetween InputChangedBetween
    Refused10Between Refused11Between Refused12Between Refused13Between Refused14Between
    AcknowledgedBetween
    // all tags to hand out were gone, and the call went on with the finding rules to this answer
    NoneLeftThen0 NoneLeftThen1 NoneLeftThen2 NoneLeftThen3 NoneLeftThenSelectTaken
    // the tags were back, and were handed out or not
    ResumedAfter1 ResumedAfter2 ResumedAfter3 NotResumedAfter0
    // the number to go on from, as a caller may set it
    NextATag NextBehindTheTags NextNone NextAboveNone
    SixteenFromOneInventory
    // a Set Select stored before the bytes of a longer one
    ShorterSelection
    // what a call on a full list would have come to if there were room
    FullBeforeAHandOut FullBeforeGood FullBeforeError FullBefore1 FullBefore2 FullBefore3
    // the refusals that come before a full list
    Refused10WithFullList Refused11WithFullList Refused12WithFullList Refused13WithFullList
    Refused21WithFullList Refused22WithFullList
    // records were taken off the list behind a call with this answer
    AcknowledgedAfter0 AcknowledgedAfter1 AcknowledgedAfter2 AcknowledgedAfter3
    AcknowledgedAfter10 AcknowledgedAfter11 AcknowledgedAfter12 AcknowledgedAfter13
    AcknowledgedAfter14 AcknowledgedAfter21 AcknowledgedAfter22
    // a record was written to a place that an acknowledge had freed, and to the last place
    FreedPlaceUsedAgain LastPlaceUsed
    // shapes that the C interface refuses by itself, each also with what a later test would refuse
    StateLengthBeforeCount CountBeforePlaces OddPlacesBeforeRecords FarPlaceBeforeRecords
    RecordsLengthBeforeCursor AcknowledgeStateLengthBeforeRecords AcknowledgeRecordsLengthBeforeHeld
    FarBehindSixteen SelectionAbove39 SelectionAbove39BehindCursor
}

/// The largest answer number is 23.
pub struct Seen {
    answers: [u64; 24],
    reasons: [u64; 6],
    situations: [u64; SITUATIONS.len()],
}

impl Seen {
    pub fn new() -> Seen {
        Seen {
            answers: [0; 24],
            reasons: [0; 6],
            situations: [0; SITUATIONS.len()],
        }
    }

    pub fn answer(&mut self, number: u64, reason: u64) {
        self.answers[number as usize] += 1;
        if number == 3 {
            self.reasons[reason as usize] += 1;
        }
    }

    pub fn add(&mut self, situation: Situation) {
        self.situations[situation as usize] += 1;
    }

    /// Prints what came, and says whether everything did.
    pub fn report(&self) -> bool {
        for (name, counts) in [("answer", &self.answers[..]), ("reason", &self.reasons[..])] {
            for (number, count) in counts.iter().enumerate().filter(|(_, c)| **c > 0) {
                println!("  {name} {number:2}: {count}");
            }
        }
        let situations = SITUATIONS.iter().map(|name| name.to_string());
        let situations: Vec<_> = situations.zip(self.situations).collect();
        least("branches of the model", &branch_counts()) & least("situations", &situations)
    }
}

/// Prints how many there are and the rarest of them; false where some never came.
fn least(what: &str, counts: &[(String, u64)]) -> bool {
    if let Some((name, least)) = counts.iter().min_by_key(|(_, c)| *c) {
        println!("{} {what}; least often {name}: {least}", counts.len());
    }
    let never = counts.iter().filter(|(_, c)| *c == 0);
    let never: Vec<_> = never.map(|(name, _)| name).collect();
    if !never.is_empty() {
        println!("NEVER REACHED: {never:?}");
    }
    never.is_empty()
}
