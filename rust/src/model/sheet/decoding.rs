//! A failed command, "decoded from the input at the record's cursor: code, name, bank, pointer and count
//! of a Read or Write, mask and action of a Lock". The rules of its fields are written here once more,
//! and not asked of the model.

/// A command by its code, and its fields where they are right.
#[derive(Clone, Copy, Debug, PartialEq, Eq)]
pub struct Command {
    pub code: u8,
    /// "A malformed command shows its code and no fields."
    pub fields: Option<Fields>,
}

#[derive(Clone, Copy, Debug, PartialEq, Eq)]
pub enum Fields {
    Inventory,
    Read(Words),
    Write(Words),
    Lock { mask: u32, action: u32 },
    Kill,
}

/// The words that a Read or a Write names.
#[derive(Clone, Copy, Debug, PartialEq, Eq)]
pub struct Words {
    pub bank: u8,
    pub pointer: u16,
    pub count: u16,
}

impl Command {
    /// The accepted command that starts here: "BB, type, code, PL as two bytes high first, PL parameter
    /// bytes, check, 7E".
    pub fn at(input: &[u8], at: usize) -> Command {
        let code = input[at + 2];
        let pl = usize::from(two_bytes(input, at + 3));
        Command {
            code,
            fields: fields(code, &input[at + 5..at + 5 + pl]),
        }
    }
}

/// What the parameters say; nothing where document 01 answers them with plain 17 before it looks at a tag.
fn fields(code: u8, parameters: &[u8]) -> Option<Fields> {
    let pl = parameters.len();
    match code {
        // "0x22: PL not 0: plain 17."
        0x22 => (pl == 0).then_some(Fields::Inventory),
        // "0x39: [...] PL not 9, bank above 3, count not 1 to 32: plain 17."
        0x39 if pl == 9 => words(parameters).map(Fields::Read),
        // "0x49: [...] PL below 9 or not 9 + 2 x count, bank, count: plain 17."
        0x49 if pl >= 9 => {
            let words = words(parameters)?;
            let whole = 9 + 2 * usize::from(words.count);
            (pl == whole).then_some(Fields::Write(words))
        }
        // "0x82: [...] PL not 7 or the top four bits of LD not 0: plain 17."
        0x82 if pl == 7 => lock(parameters),
        // "0x65: [...] PL not 4: plain 17."
        0x65 => (pl == 4).then_some(Fields::Kill),
        // "Any code not listed: plain 17." A Set Select whose fields are right is taken, and "answers 00":
        // one that failed is malformed, and has no shape to show.
        _ => None,
    }
}

/// "password (4), bank (1), pointer (2), count (2)"
fn words(parameters: &[u8]) -> Option<Words> {
    let words = Words {
        bank: parameters[4],
        pointer: two_bytes(parameters, 5),
        count: two_bytes(parameters, 7),
    };
    let is_right = words.bank <= 3 && (1..=32).contains(&words.count);
    is_right.then_some(words)
}

/// "password (4), LD (3)"; "LD bits 19 to 10 are the mask, 9 to 0 the action"
fn lock(parameters: &[u8]) -> Option<Fields> {
    let ld = u32::from_be_bytes([0, parameters[4], parameters[5], parameters[6]]);
    (ld >> 20 == 0).then_some(Fields::Lock {
        mask: ld >> 10,
        action: ld & 0x3FF,
    })
}

fn two_bytes(bytes: &[u8], at: usize) -> u16 {
    u16::from_be_bytes([bytes[at], bytes[at + 1]])
}
