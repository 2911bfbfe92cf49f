//! The rows of a sheet: each column at its place, 99 columns wide.

use super::number_of;
use super::run::{Drops, Item};
use super::words::{command_text, error_text, REASONS};

const WIDTH: usize = 99;

/// Where a column starts, or for the item's number ends, counted from 1.
const ITEM_END: usize = 4;
const BYTE: usize = 8;
const COMMAND: usize = 21;
const RESULT: usize = 51;
const SECOND_REASON: usize = 69;
const MEANT: usize = 91;
const FAULT: usize = 97;

const BOX: &str = "[ ]";

/// One row, blank where nothing was put.
struct Row(String);

impl Row {
    fn blank() -> Row {
        Row(" ".repeat(WIDTH))
    }

    /// A row with the number of its item, where it stands in the input, and the boxes for the hand.
    fn new(number: &str, first: usize, last: usize) -> Row {
        Row::blank()
            .put(ITEM_END + 1 - number.len(), number)
            .put(BYTE, &positions(first, last))
            .put(MEANT, BOX)
            .put(FAULT, BOX)
    }

    /// The row with this text from that column on, counted from 1. No text is laid over another.
    fn put(mut self, column: usize, text: &str) -> Row {
        let place = column - 1..column - 1 + text.len();
        assert!(self.0[place.clone()].chars().all(|c| c == ' '), "{text}");
        self.0.replace_range(place, text);
        self
    }

    fn line(self) -> String {
        self.0 + "\n"
    }
}

/// "Byte positions from 0": one alone, or the first and the last.
fn positions(first: usize, last: usize) -> String {
    if first == last {
        return first.to_string();
    }
    format!("{first}-{last}")
}

/// The row or the rows of an item.
pub fn item_rows(number: usize, item: &Item) -> String {
    let number = number.to_string();
    match item {
        Item::Dropped(drops) => drop_rows(&number, drops),
        Item::Failed { at, command, error } => Row::new(&number, *at, *at)
            .put(COMMAND, &command_text(command))
            .put(RESULT, &error_text(*error))
            .line(),
    }
}

/// How many bytes, and each reason with its number, two to a row.
fn drop_rows(number: &str, drops: &Drops) -> String {
    let reasons = REASONS.map(|(at, name)| (drops.reasons[at], name));
    let reasons: Vec<String> = reasons
        .iter()
        .filter(|(count, _)| *count > 0)
        .map(|(count, name)| format!("{count} {name}"))
        .collect();
    let first = Row::new(number, drops.first, drops.last)
        .put(COMMAND, &(number_of(drops.bytes(), "byte") + " dropped"));
    let rows = std::iter::once(first).chain(std::iter::repeat_with(Row::blank));
    let filled = rows.zip(reasons.chunks(2)).map(|(row, two)| {
        let row = row.put(RESULT, &two[0]);
        match two.get(1) {
            Some(second) => row.put(SECOND_REASON, second).line(),
            None => row.line(),
        }
    });
    filled.collect()
}

/// What waits at the end: "a frame that is not complete: it waits, and is no failure", so it has no number.
pub fn waiting_row(at: usize, left: usize) -> String {
    Row::new("-", at, at + left - 1)
        .put(COMMAND, &(number_of(left, "byte") + " waiting"))
        .put(RESULT, "not a whole frame")
        .line()
}
