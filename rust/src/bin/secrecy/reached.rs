//! What was tried under the premises: each command with each outcome, aimed at a hidden tag and at
//! another. A run in which one of them never came would show less than it says.

use poldrisk::model::Bench;
use poldrisk::packed::{Packed, CURSOR, LENGTH, NEXT, SELECTED};
use std::collections::BTreeMap;

/// Every outcome that can come: the command, whom it was aimed at, and the answer's error byte, or
/// `good`. A hidden tag is never secured, so no Lock or Kill of it comes to anything.
const WANTED: [(&str, &str, &[&str]); 25] = [
    ("inventory", "any", &["17"]),
    ("inventory", "none", &["15"]),
    ("inventory", "hidden", &["good"]),
    ("inventory", "other", &["good"]),
    ("handed out", "hidden", &["good"]),
    ("handed out", "other", &["good"]),
    ("Set Select", "any", &["17", "good"]),
    ("unknown", "any", &["17"]),
    ("Read", "any", &["17"]),
    ("Read", "none", &["09"]),
    ("Read", "hidden", &["16", "A3", "A4", "good"]),
    ("Read", "other", &["16", "A3", "A4", "good"]),
    ("Write", "any", &["17"]),
    ("Write", "none", &["10"]),
    ("Write", "hidden", &["16", "B3", "B4", "good"]),
    ("Write", "other", &["16", "B3", "B4", "good"]),
    ("Lock", "any", &["17"]),
    ("Lock", "none", &["13"]),
    ("Lock", "hidden", &["13", "16"]),
    ("Lock", "other", &["13", "16", "C3", "C4", "good"]),
    ("Kill", "any", &["17"]),
    ("Kill", "none", &["12"]),
    ("Kill", "hidden", &["12"]),
    ("Kill", "other", &["12", "D0", "good"]),
    (
        "acknowledge",
        "records",
        &["none", "some", "all", "too many"],
    ),
];

/// The answer numbers that must come beside the outcomes.
const NUMBERS: [u64; 11] = [0, 1, 2, 3, 10, 12, 13, 14, 15, 16, 21];

#[derive(Default)]
pub struct Reached {
    outcomes: BTreeMap<String, u64>,
    numbers: BTreeMap<u64, u64>,
    /// How many crates had so many hidden tags.
    hidden: BTreeMap<usize, u64>,
}

impl Reached {
    pub fn crate_with(&mut self, hidden: usize) {
        *self.hidden.entry(hidden).or_default() += 1;
    }

    /// Counts one call: the command at the cursor before it, whom it would be aimed at, and what it left.
    pub fn call(
        &mut self,
        number: u64,
        aim: Option<usize>,
        at: &At,
        run: &Packed,
        hidden: &[usize],
    ) {
        *self.numbers.entry(number).or_default() += 1;
        if number != 0 {
            return;
        }
        let handed_out = run.state[CURSOR] == at.cursor;
        let notified = run.output[1] == 2;
        let tag = match notified {
            true => Some(run.state[NEXT] as usize - 1),
            false => aim,
        };
        let outcome = outcome_of(&run.output[..run.state[LENGTH] as usize]);
        let command = if handed_out {
            "handed out"
        } else {
            name_of(at.code)
        };
        // what falls at the command's own bytes is aimed at nobody
        let aimed = match tag {
            _ if outcome == "17" || command == "Set Select" => "any",
            None => "none",
            Some(tag) if hidden.contains(&tag) => "hidden",
            Some(_) => "other",
        };
        let key = format!("{command}, {aimed}: {outcome}");
        *self.outcomes.entry(key).or_default() += 1;
    }

    /// Counts an acknowledge of so many records of a list that held so many.
    pub fn acknowledge(&mut self, number: u64, count: u64, held: u64) {
        *self.numbers.entry(number).or_default() += 1;
        let outcome = match count {
            _ if count > held => "too many",
            0 => "none",
            _ if count == held => "all",
            _ => "some",
        };
        let key = format!("acknowledge, records: {outcome}");
        *self.outcomes.entry(key).or_default() += 1;
    }

    /// Prints the counts; false where something wanted never came, or something came that is not known.
    pub fn report(&self) -> bool {
        println!("  answers: {:?}", self.numbers);
        println!("  crates by their hidden tags: {:?}", self.hidden);
        for (name, count) in &self.outcomes {
            println!("  {name}: {count}");
        }
        let wanted = wanted();
        let never = |name: &&String| !self.outcomes.contains_key(*name);
        let never: Vec<_> = wanted.iter().filter(never).collect();
        let unknown = |name: &&String| !wanted.contains(name);
        let unknown: Vec<_> = self.outcomes.keys().filter(unknown).collect();
        println!("{} outcomes wanted", wanted.len());
        let numbers = NUMBERS.iter().filter(|n| !self.numbers.contains_key(n));
        let crates = (1..=16).filter(|n| !self.hidden.contains_key(n));
        [
            none_of("outcomes NEVER REACHED", never),
            none_of("outcomes that are not known", unknown),
            none_of("answers NEVER REACHED", numbers.collect()),
            none_of("no crate with so many hidden tags", crates.collect()),
        ]
        .iter()
        .all(|none| *none)
    }
}

/// Prints what there is of something that is not to be.
fn none_of<T: std::fmt::Debug>(what: &str, of: Vec<T>) -> bool {
    if !of.is_empty() {
        println!("{what}: {of:?}");
    }
    of.is_empty()
}

fn wanted() -> Vec<String> {
    let mut all = Vec::new();
    for (command, aimed, outcomes) in WANTED {
        for outcome in outcomes {
            all.push(format!("{command}, {aimed}: {outcome}"));
        }
    }
    all
}

fn name_of(code: u8) -> &'static str {
    match code {
        0x22 => "inventory",
        0x0C => "Set Select",
        0x39 => "Read",
        0x49 => "Write",
        0x82 => "Lock",
        0x65 => "Kill",
        _ => "unknown",
    }
}

fn outcome_of(answer: &[u8]) -> String {
    match answer[2] {
        0xFF => format!("{:02X}", answer[5]),
        _ => "good".to_string(),
    }
}

/// What stands at the cursor before a call.
pub struct At {
    cursor: u64,
    header: bool,
    code: u8,
}

impl At {
    pub fn of(run: &Packed, input: &[u8]) -> At {
        let cursor = run.state[CURSOR];
        let rest = usize::try_from(cursor).ok().and_then(|c| input.get(c..));
        let rest = rest.unwrap_or_default();
        At {
            cursor,
            header: rest.first() == Some(&0xBB),
            code: rest.get(2).copied().unwrap_or(0),
        }
    }

    /// Whether a command may start here.
    pub fn may_be_aimed(&self) -> bool {
        self.header
    }
}

/// The tag that a command would be aimed at, by the model: it only tells what was tried, and decides
/// nothing.
pub fn aim_of(run: &Packed) -> Option<usize> {
    let places = run.places.chunks_exact(2).map(|p| (p[0], p[1]));
    // a crate of so long a selection is bad, and aims at nobody
    let selection = run.selection.get(..run.state[SELECTED] as usize)?;
    let bench = Bench {
        memory: run.memory.clone(),
        places: places.collect(),
        selection: selection.to_vec(),
        records: Vec::new(),
        ..Bench::of_tags(&[])
    };
    bench.aimed()
}
