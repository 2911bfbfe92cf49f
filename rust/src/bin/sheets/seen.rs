//! What came up in a run of the comparison. A run in which something of it never came has compared less than
//! it says.

use crate::expected::{Expected, Outcome};
use crate::folder::{Entry, Folder};
use crate::wanted::WANTED;
use poldrisk::model::sheet::{
    Command, Drops, Fields, Item, NoSheet, Run, MOST_COMMAND_BYTES, MOST_TAG_BYTES,
};
use std::collections::BTreeMap;

/// How often each situation came, by its group and name.
#[derive(Default)]
pub struct Seen(BTreeMap<String, u64>);

impl Seen {
    /// Counts what one folder has shown.
    pub fn add(&mut self, folder: &Folder, expected: &Expected) {
        self.count_files(folder);
        match &expected.outcome {
            Outcome::Sheet(run) => self.count_sheet(folder, run),
            Outcome::None(NoSheet::TooLong) => {
                let long = folder.commands.bytes().len() > MOST_COMMAND_BYTES;
                self.count_none("too long", long, folder);
            }
            Outcome::None(NoSheet::Refused(11)) => self.count("no sheet", refused(folder)),
            Outcome::None(NoSheet::Refused(number)) => {
                self.count("no sheet", &format!("refused with {number}"));
            }
            Outcome::Unreadable => {
                let commands = folder.commands == Entry::Directory;
                self.count_none("unreadable", commands, folder);
            }
        }
    }

    fn count(&mut self, group: &str, which: &str) {
        *self.0.entry(format!("{group}: {which}")).or_default() += 1;
    }

    /// Which file it is that a folder has no sheet for.
    fn count_none(&mut self, why: &str, is_commands: bool, folder: &Folder) {
        let file = match folder.is_crate() {
            _ if is_commands => "commands.bin",
            true => "image in a crate",
            false => "tag.img",
        };
        self.count("no sheet", &format!("{why} {file}"));
    }

    fn count_files(&mut self, folder: &Folder) {
        let length = folder.commands.bytes().len();
        if length == 1 || length.abs_diff(MOST_COMMAND_BYTES) <= 1 {
            self.count("length", &format!("commands.bin {length}"));
        }
        for length in folder.tags().iter().map(|tag| tag.bytes().len()) {
            if [MOST_TAG_BYTES, MOST_TAG_BYTES + 1].contains(&length) {
                self.count("length", &format!("image {length}"));
            }
        }
        if !folder.commands.is_there() {
            self.count("folder", "without commands.bin");
        }
        if folder.tag.is_there() && !folder.numbered.is_empty() {
            self.count("folder", "tag.img beside numbered ones");
        }
    }

    fn count_sheet(&mut self, folder: &Folder, run: &Run) {
        let tags = match (folder.is_crate(), folder.tags().len()) {
            (false, _) => "tag.img",
            (true, 1) => "crate of 1",
            (true, 16) => "crate of 16",
            _ => "crate of 2 to 15",
        };
        self.count("tags on a sheet", tags);
        let taken = ["0", "1"].get(run.taken as usize).unwrap_or(&"more");
        self.count("commands taken", taken);
        let answers = match run.most_answers {
            0 | 1 => "0 or 1",
            16 => "16",
            _ => "2 to 15",
        };
        self.count("answers to one command", answers);
        self.count_number(folder, run);
        run.items.iter().for_each(|item| self.count_item(run, item));
        run.items
            .windows(2)
            .for_each(|two| self.count_neighbours(&two[0], &two[1]));
        self.count_waiting(run);
    }

    fn count_number(&mut self, folder: &Folder, run: &Run) {
        let items = match run.items.len() {
            0 if folder.commands.bytes().is_empty() => "0 of no bytes",
            0 if run.left > 0 => "0 of a waiting frame",
            0 => "0",
            1..10 => "1 to 9",
            10..100 => "10 to 99",
            100..1000 => "100 to 999",
            _ => "1000 or more",
        };
        self.count("items", items);
    }

    fn count_item(&mut self, run: &Run, item: &Item) {
        match item {
            Item::Dropped(drops) => self.count_drops(run, drops),
            Item::Failed { command, error, .. } => {
                self.count("error byte", &format!("{error:02X}"));
                self.count("failed", &name_of(command));
                if let Some(Fields::Read(words) | Fields::Write(words)) = command.fields {
                    let far = ["up to 9999", "above 9999"][usize::from(words.pointer > 9999)];
                    self.count("pointer", far);
                }
            }
        }
    }

    fn count_drops(&mut self, run: &Run, drops: &Drops) {
        let reasons = drops.reasons.iter().zip(1..).filter(|(n, _)| **n > 0);
        let reasons: Vec<i32> = reasons.map(|(_, number)| number).collect();
        for number in &reasons {
            self.count("reason", &number.to_string());
        }
        self.count("reasons of an item", &reasons.len().to_string());
        let bytes = match drops.bytes() {
            1 => "1",
            2..1000 => "2 to 999",
            _ => "1000 or more",
        };
        self.count("bytes of an item", bytes);
        // no command was taken before the first byte, and none behind the end
        let place = match (drops.first == 0, drops.last + 1 == run.at_the_end) {
            (true, true) => "and no command",
            (true, false) => "before all commands",
            (false, true) => "behind all commands",
            (false, false) => "between commands",
        };
        self.count("drops", place);
    }

    /// Two items of which one follows the other. Between two of drops there is a good command at least.
    fn count_neighbours(&mut self, one: &Item, other: &Item) {
        let kind = |item: &Item| match item {
            Item::Dropped(_) => "drops",
            Item::Failed { .. } => "command",
        };
        let both = format!("{}, {}", kind(one), kind(other));
        self.count("neighbours", &both);
    }

    fn count_waiting(&mut self, run: &Run) {
        if run.left == 0 {
            return;
        }
        let bytes = if run.left == 1 {
            "1 byte"
        } else {
            "more bytes"
        };
        self.count("waiting", bytes);
        let behind = match run.items.last() {
            Some(Item::Dropped(drops)) if drops.last + 1 == run.at_the_end => "behind drops",
            _ if run.at_the_end > 0 => "behind a command",
            _ => "behind nothing",
        };
        self.count("waiting", behind);
    }

    /// Prints the rarest, and says whether everything came that is wanted, and nothing that is not known.
    pub fn report(&self) -> bool {
        let wanted: Vec<String> = WANTED
            .iter()
            .flat_map(|(group, names)| names.iter().map(move |name| format!("{group}: {name}")))
            .collect();
        let count = |name: &String| self.0.get(name).copied().unwrap_or(0);
        if let Some(least) = wanted.iter().min_by_key(|name| count(name)) {
            let number = wanted.len();
            println!("{number} situations; least often {least}: {}", count(least));
        }
        let never: Vec<_> = wanted.iter().filter(|name| count(name) == 0).collect();
        if !never.is_empty() {
            println!("NEVER REACHED: {never:?}");
        }
        let unknown = self.0.keys().filter(|name| !wanted.contains(name));
        let unknown: Vec<_> = unknown.collect();
        if !unknown.is_empty() {
            println!("situations that are not known: {unknown:?}");
        }
        never.is_empty() && unknown.is_empty()
    }
}

/// Why a folder is refused: the first of these that holds.
fn refused(folder: &Folder) -> &'static str {
    let tags = folder.tags();
    match folder.is_crate() {
        false if folder.tag.is_there() => "bad tag.img",
        false => "no image",
        true if tags.len() > 16 => "crate of 17",
        true if tags.contains(&Entry::Missing) => "missing below",
        true => "bad image in a crate",
    }
}

fn name_of(command: &Command) -> String {
    let bank = |bank: u8| ["Reserved", "EPC", "TID", "User"][usize::from(bank)];
    match (command.fields, command.code) {
        (Some(Fields::Inventory), _) => "Inventory".to_string(),
        (Some(Fields::Read(words)), _) => format!("Read {}", bank(words.bank)),
        (Some(Fields::Write(words)), _) => format!("Write {}", bank(words.bank)),
        (Some(Fields::Lock { .. }), _) => "Lock".to_string(),
        (Some(Fields::Kill), _) => "Kill".to_string(),
        (None, code @ (0x0C | 0x22 | 0x39 | 0x49 | 0x65 | 0x82)) => format!("malformed {code:02X}"),
        (None, _) => "not listed".to_string(),
    }
}
