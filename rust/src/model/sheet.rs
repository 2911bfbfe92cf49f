//! The failure sheet of a folder, over the model's own run. Written from the words of the request for it, from
//! README's tables and from a list of its columns and words, which no paper gives, and from nothing of the
//! program that prints it. Quoted lines are the request's, README's or the papers'.

mod decoding;
mod rows;
mod run;
mod words;

pub use decoding::{Command, Fields, Words};
pub use run::{Drops, Item, NoSheet, Run};

use rows::{item_rows, waiting_row};

/// "The program reads commands.bin and tag.img, at most 32,768 and 2,048 bytes"
pub const MOST_COMMAND_BYTES: usize = 32_768;
pub const MOST_TAG_BYTES: usize = 2_048;

/// The line in the place of a sheet where a file "can be opened, but not read to its end".
pub const UNREADABLE: &str = "UNREADABLE\n";

const TITLE: &str = "POLDRISK FAILURE SHEET\n";
const COLUMN_NAMES: &str =
    "ITEM   BYTE         COMMAND                       RESULT                                MEANT FAULT\n";
const SIGNATURES: &str =
    "Line builder ______________________   Inspector ______________________   Date ____________\n";
const LAST_LINE: &str = "END OF SHEET\n";

/// The page of a folder with these bytes of commands and these images of tags.
pub fn page(commands: &[u8], tags: &[Vec<u8>], is_crate: bool) -> String {
    match Run::of(commands, tags) {
        Ok(run) => run.sheet(commands.len(), tags, is_crate),
        Err(none) => none.line(),
    }
}

impl NoSheet {
    /// "`REFUSED n`, `TOO LONG`, `UNREADABLE`: that one line, no signature lines, no END OF SHEET."
    pub fn line(&self) -> String {
        match self {
            NoSheet::TooLong => "TOO LONG\n".to_string(),
            NoSheet::Refused(number) => format!("REFUSED {number}\n"),
        }
    }
}

impl Run {
    /// The sheet of this run, with its files named by their lengths.
    pub fn sheet(&self, commands: usize, tags: &[Vec<u8>], is_crate: bool) -> String {
        let head = self.head(commands, tags, is_crate);
        format!("{head}\n{COLUMN_NAMES}{}\n{}", self.rows(), self.foot())
    }

    /// "a head with the title, each file with its length and `9 commands taken`"
    fn head(&self, commands: usize, tags: &[Vec<u8>], is_crate: bool) -> String {
        let taken = number_of(self.taken as usize, "command");
        let first = file_line("commands.bin", commands);
        let mut head = format!("{TITLE}{first}, {taken} taken\n");
        for (tag, image) in tags.iter().enumerate() {
            let name = match is_crate {
                true => format!("tag-{tag:02}.img"),
                false => "tag.img".to_string(),
            };
            head += &(file_line(&name, image.len()) + "\n");
        }
        head
    }

    /// The rows of the items, in the order of the input, then that of what waits.
    fn rows(&self) -> String {
        let items = self.items.iter().zip(1..);
        let mut rows: String = items
            .map(|(item, number)| item_rows(number, item))
            .collect();
        if self.left > 0 {
            rows += &waiting_row(self.at_the_end, self.left);
        }
        rows
    }

    /// "the counts line of the report; `FAILURES 11 = ERROR 4 + DROPPED 7, ITEMS 5`; a signature line;
    /// END OF SHEET"
    fn foot(&self) -> String {
        let [good, error, dropped @ ..] = self.counts;
        let each = dropped.map(|count| count.to_string()).join(" ");
        let all: u64 = dropped.iter().sum();
        let failures = error + all;
        let items = self.items.len();
        format!(
            "GOOD {good} ERROR {error} DROPPED {each} LEFT {}\n\
             FAILURES {failures} = ERROR {error} + DROPPED {all}, ITEMS {items}\n\
             \n{SIGNATURES}{LAST_LINE}",
            self.left
        )
    }
}

/// A file's name and its length, which ends in column 20.
fn file_line(name: &str, length: usize) -> String {
    let width = 20 - name.len();
    let unit = if length == 1 { "byte" } else { "bytes" };
    format!("{name}{length:>width$} {unit}")
}

/// A number and what it counts: `1 byte`, and else `0 bytes` or `7 bytes`.
fn number_of(count: usize, what: &str) -> String {
    match count {
        1 => format!("1 {what}"),
        _ => format!("{count} {what}s"),
    }
}
