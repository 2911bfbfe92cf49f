//! What a run of the comparison must meet.

/// Each group of situations, and which of them are to come.
pub const WANTED: [(&str, &[&str]); 16] = [
    (
        "error byte",
        &[
            "17", "15", "09", "10", "13", "12", "16", "A3", "B3", "A4", "B4", "C3", "C4", "D0",
        ],
    ),
    ("reason", &["1", "2", "3", "4", "5"]),
    ("reasons of an item", &["1", "2", "3", "4", "5"]),
    ("bytes of an item", &["1", "2 to 999", "1000 or more"]),
    (
        "drops",
        &[
            "before all commands",
            "between commands",
            "behind all commands",
            "and no command",
        ],
    ),
    (
        "neighbours",
        &[
            "drops, drops",
            "drops, command",
            "command, drops",
            "command, command",
        ],
    ),
    (
        "failed",
        &[
            "Inventory",
            "Read Reserved",
            "Read EPC",
            "Read TID",
            "Read User",
            "Write Reserved",
            "Write EPC",
            "Write TID",
            "Write User",
            "Lock",
            "Kill",
            "malformed 0C",
            "malformed 22",
            "malformed 39",
            "malformed 49",
            "malformed 65",
            "malformed 82",
            "not listed",
        ],
    ),
    ("pointer", &["up to 9999", "above 9999"]),
    (
        "waiting",
        &[
            "1 byte",
            "more bytes",
            "behind drops",
            "behind a command",
            "behind nothing",
        ],
    ),
    (
        "items",
        &[
            "0",
            "0 of no bytes",
            "0 of a waiting frame",
            "1 to 9",
            "10 to 99",
            "100 to 999",
            "1000 or more",
        ],
    ),
    ("commands taken", &["0", "1", "more"]),
    ("answers to one command", &["0 or 1", "2 to 15", "16"]),
    (
        "tags on a sheet",
        &["tag.img", "crate of 1", "crate of 2 to 15", "crate of 16"],
    ),
    (
        "no sheet",
        &[
            "no image",
            "crate of 17",
            "missing below",
            "bad tag.img",
            "bad image in a crate",
            "too long commands.bin",
            "too long tag.img",
            "too long image in a crate",
            "unreadable commands.bin",
            "unreadable tag.img",
            "unreadable image in a crate",
        ],
    ),
    (
        "length",
        &[
            "commands.bin 1",
            "commands.bin 32767",
            "commands.bin 32768",
            "commands.bin 32769",
            "image 2048",
            "image 2049",
        ],
    ),
    (
        "folder",
        &["without commands.bin", "tag.img beside numbered ones"],
    ),
];
