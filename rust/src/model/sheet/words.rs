//! "Words for every error byte and reason of README's tables", and what is said of a command.

use super::decoding::{Command, Fields, Words};

/// The error byte and words for it.
pub fn error_text(error: u8) -> String {
    let words = match error {
        0x17 => "code not listed, or a wrong field",
        0x15 | 0x09 | 0x10 => "no tag present that matches",
        0x13 => "no tag present, or not secured",
        0x12 => "no tag, or another kill password",
        0x16 => "wrong access password",
        0xA3 => "the bank has no such words",
        0xB3 => "no such words, or PC does not fit",
        0xA4 => "region locked",
        0xB4 => "region locked, or EPC word 0",
        0xC3 => "the tag has no User words",
        0xC4 => "a permalocked region would change",
        0xD0 => "no kill password is stored",
        other => unreachable!("no answer has the error byte {other:02X}"),
    };
    format!("{error:02X} {words}")
}

/// The reasons by the order in which a row has them: what is wrong with a header first, and the bytes that
/// are dropped behind it last. Beside each its place among the five counts.
pub const REASONS: [(usize, &str); 5] = [
    (1, "wrong type"),
    (2, "too long"),
    (3, "wrong check"),
    (4, "wrong end"),
    (0, "no header"),
];

/// "code, name, bank, pointer and count of a Read or Write, mask and action of a Lock"; "Never a password,
/// data or dropped byte".
pub fn command_text(command: &Command) -> String {
    let code = command.code;
    match command.fields {
        None => format!("{code:02X}"),
        Some(Fields::Inventory) => format!("{code:02X} Inventory"),
        Some(Fields::Read(words)) => format!("{code:02X} Read {}", words_text(&words)),
        Some(Fields::Write(words)) => format!("{code:02X} Write {}", words_text(&words)),
        Some(Fields::Lock { mask, action }) => {
            format!("{code:02X} Lock mask {mask:04X} action {action:04X}")
        }
        Some(Fields::Kill) => format!("{code:02X} Kill"),
    }
}

/// "Bank numbers: 0 Reserved, 1 EPC, 2 TID, 3 User."
fn words_text(words: &Words) -> String {
    let bank = ["Reserved", "EPC", "TID", "User"][usize::from(words.bank)];
    format!("{bank} {}+{}", words.pointer, words.count)
}
