//! The run that a sheet is of: the model's calls one after another, and the items that its failures make.

use super::decoding::Command;
use super::{MOST_COMMAND_BYTES, MOST_TAG_BYTES};
use crate::model::{Bench, Record};

/// Why there is no sheet.
#[derive(Clone, Copy, Debug, PartialEq, Eq)]
pub enum NoSheet {
    /// "a longer file gives only `TOO LONG`"
    TooLong,
    /// "A call answered 10 to 13 gives only `REFUSED` and the number."
    Refused(u64),
}

/// What stands on the sheet under a number of its own.
#[derive(Clone, Debug, PartialEq, Eq)]
pub enum Item {
    /// A command that was answered with an error frame, and where it starts in the input.
    Failed {
        at: usize,
        command: Command,
        error: u8,
    },
    Dropped(Drops),
}

/// "Drops that follow one another, with no command between them, are one item, with their reasons summed."
#[derive(Clone, Copy, Debug, PartialEq, Eq)]
pub struct Drops {
    pub first: usize,
    pub last: usize,
    /// How many bytes were dropped for each reason, in the order of their numbers.
    pub reasons: [u64; 5],
}

impl Drops {
    pub fn bytes(&self) -> usize {
        self.last - self.first + 1
    }
}

#[derive(Clone, Debug, Default, PartialEq, Eq)]
pub struct Run {
    /// The commands that were accepted. An inventory is one, however many tags it hands out: it "hands
    /// out each matching present tag [...], one per call, then takes the next command".
    pub taken: u64,
    pub items: Vec<Item>,
    /// Good answers, error answers, and the bytes dropped for each reason.
    pub counts: [u64; 7],
    /// Where the run ended, and what remains from there: "LEFT is what remains at answer 1 or 2".
    pub at_the_end: usize,
    pub left: usize,
    /// The most answers that one command got: an inventory has one for each tag that it hands out.
    pub most_answers: u64,
}

impl Run {
    /// The run of these files.
    pub fn of(commands: &[u8], tags: &[Vec<u8>]) -> Result<Run, NoSheet> {
        let is_tag_too_long = tags.iter().any(|image| image.len() > MOST_TAG_BYTES);
        if commands.len() > MOST_COMMAND_BYTES || is_tag_too_long {
            return Err(NoSheet::TooLong);
        }
        let mut bench = Bench::of_tags(tags);
        let mut run = Run::default();
        let mut answers = 0;
        // whether the last item is of drops and no command was taken since: the next drop is one more of them
        let mut goes_on = false;
        loop {
            let before = bench.cursor;
            match bench.call(commands) {
                // "The cursor moves with the first of them only": no command is taken by the others
                0 if bench.cursor == before => answers += 1,
                0 => {
                    run.taken += 1;
                    answers = 1;
                    goes_on = false;
                }
                3 => {}
                1 | 2 => break,
                number => return Err(NoSheet::Refused(number)),
            }
            run.most_answers = run.most_answers.max(answers);
            if let Some(record) = signed_for(&mut bench) {
                run.add(commands, &record, goes_on);
                goes_on = record.error == 0;
            }
        }
        run.counts = bench.counts();
        run.at_the_end = bench.cursor as usize;
        run.left = commands.len() - run.at_the_end;
        Ok(run)
    }

    /// "Each error answer and each drop adds exactly one record": an item of its own, or a byte more
    /// of the drops before it.
    fn add(&mut self, commands: &[u8], record: &Record, goes_on: bool) {
        let at = record.cursor as usize;
        // "error byte ([...] 0 for a drop)"
        if record.error != 0 {
            return self.items.push(Item::Failed {
                at,
                command: Command::at(commands, at),
                error: record.error as u8,
            });
        }
        if !goes_on {
            self.items.push(Item::Dropped(Drops {
                first: at,
                last: at,
                reasons: [0; 5],
            }));
        }
        if let Some(Item::Dropped(drops)) = self.items.last_mut() {
            drops.last = at;
            drops.reasons[record.cause as usize - 1] += 1;
        }
    }
}

/// The record that a call added, if any. It is acknowledged at once, so the list is never full.
fn signed_for(bench: &mut Bench) -> Option<Record> {
    let record = (bench.held > 0).then(|| bench.records[0]);
    bench.acknowledge(bench.held);
    record
}
