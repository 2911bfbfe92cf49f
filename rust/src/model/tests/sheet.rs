//! The failure sheet: whole pages written down by hand from the request's words, and what holds of any.

use super::*;
use crate::generator::sample_tag;
use crate::model::sheet::page;

mod any_page;
mod commands;
mod files;

const INVENTORY: [u8; 7] = [0xBB, 0x00, 0x22, 0x00, 0x00, 0x22, 0x7E];
const NAMES: &str =
    "ITEM   BYTE         COMMAND                       RESULT                                MEANT FAULT";
const SIGNATURES: &str =
    "Line builder ______________________   Inspector ______________________   Date ____________";

/// A Kill of the sample tag with another password than its own: 12.
fn wrong_kill() -> Vec<u8> {
    frame(0x65, &[0, 0, 0, 1])
}

/// The page of the sample tag alone, line by line.
fn is_page(commands: &[u8], lines: &[&str]) {
    is_page_of(commands, &[sample_image()], false, lines);
}

fn is_page_of(commands: &[u8], tags: &[Vec<u8>], is_crate: bool, lines: &[&str]) {
    let page = page(commands, tags, is_crate);
    let got: Vec<_> = page.lines().collect();
    assert_eq!(got, lines, "\n{page}");
    assert!(page.ends_with('\n') && page.is_ascii());
}

/// "No failure: the sheet says `ITEMS 0` and is still there to be signed."
#[test]
fn no_failure() {
    let read = frame(0x39, &[0, 0, 0xFF, 0xFF, 3, 0, 0, 0, 2]);
    is_page(
        &[&INVENTORY[..], &read].concat(),
        &[
            "POLDRISK FAILURE SHEET",
            "commands.bin      23 bytes, 2 commands taken",
            "tag.img           86 bytes",
            "",
            NAMES,
            "",
            "GOOD 2 ERROR 0 DROPPED 0 0 0 0 0 LEFT 0",
            "FAILURES 0 = ERROR 0 + DROPPED 0, ITEMS 0",
            "",
            SIGNATURES,
            "END OF SHEET",
        ],
    );
}

#[test]
fn no_commands() {
    is_page(
        &[],
        &[
            "POLDRISK FAILURE SHEET",
            "commands.bin       0 bytes, 0 commands taken",
            "tag.img           86 bytes",
            "",
            NAMES,
            "",
            "GOOD 0 ERROR 0 DROPPED 0 0 0 0 0 LEFT 0",
            "FAILURES 0 = ERROR 0 + DROPPED 0, ITEMS 0",
            "",
            SIGNATURES,
            "END OF SHEET",
        ],
    );
}

/// A good command parts two items as a failed one does.
#[test]
fn drops_before_between_and_behind() {
    let noise = [0x41, 0x42, 0x43];
    let commands = [
        &noise[..1],
        &INVENTORY,
        &noise,
        &wrong_kill(),
        &wrong_kill(),
        &noise[..2],
    ]
    .concat();
    is_page(
        &commands,
        &[
            "POLDRISK FAILURE SHEET",
            "commands.bin      35 bytes, 3 commands taken",
            "tag.img           86 bytes",
            "",
            NAMES,
            "   1   0            1 byte dropped                1 no header                             [ ]   [ ]",
            "   2   8-10         3 bytes dropped               3 no header                             [ ]   [ ]",
            "   3   11           65 Kill                       12 no tag, or another kill password     [ ]   [ ]",
            "   4   22           65 Kill                       12 no tag, or another kill password     [ ]   [ ]",
            "   5   33-34        2 bytes dropped               2 no header                             [ ]   [ ]",
            "",
            "GOOD 1 ERROR 2 DROPPED 6 0 0 0 0 LEFT 0",
            "FAILURES 8 = ERROR 2 + DROPPED 6, ITEMS 5",
            "",
            SIGNATURES,
            "END OF SHEET",
        ],
    );
}

/// "with their reasons summed": a header for each reason, and seventeen bytes that are none.
#[test]
fn five_reasons() {
    let commands = [
        &[0xBB, 0x01][..],
        &[0xBB, 0x00, 0x22, 0x00, 0x51],
        &odd_frame(0, &[], 1, 0),
        &odd_frame(0, &[], 0, 1),
    ]
    .concat();
    is_page(
        &commands,
        &[
            "POLDRISK FAILURE SHEET",
            "commands.bin      21 bytes, 0 commands taken",
            "tag.img           86 bytes",
            "",
            NAMES,
            "   1   0-20         21 bytes dropped              1 wrong type      1 too long            [ ]   [ ]",
            "                                                  1 wrong check     1 wrong end                    ",
            "                                                  17 no header                                     ",
            "",
            "GOOD 0 ERROR 0 DROPPED 17 1 1 1 1 LEFT 0",
            "FAILURES 21 = ERROR 0 + DROPPED 21, ITEMS 1",
            "",
            SIGNATURES,
            "END OF SHEET",
        ],
    );
}

/// An inventory is one command taken, and each tag that it hands out a good answer.
#[test]
fn crate_of_three() {
    let tags = [sample_image(), sample_tag(0x0D71), sample_tag(0x0D72)];
    let commands = [
        &frame(0x39, &[0, 0, 0xFF, 0xFF, 3, 0, 15, 0, 2]),
        &INVENTORY[..],
        &frame(0x82, &[0, 0, 0, 0, 0x02, 0x00, 0x80]),
        &[0x41],
    ]
    .concat();
    is_page_of(
        &commands,
        &tags,
        true,
        &[
            "POLDRISK FAILURE SHEET",
            "commands.bin      38 bytes, 3 commands taken",
            "tag-00.img        86 bytes",
            "tag-01.img        86 bytes",
            "tag-02.img        86 bytes",
            "",
            NAMES,
            "   1   0            39 Read User 15+2             A3 the bank has no such words           [ ]   [ ]",
            "   2   23           82 Lock mask 0080 action 0080 13 no tag present, or not secured       [ ]   [ ]",
            "   3   37           1 byte dropped                1 no header                             [ ]   [ ]",
            "",
            "GOOD 3 ERROR 2 DROPPED 1 0 0 0 0 LEFT 0",
            "FAILURES 3 = ERROR 2 + DROPPED 1, ITEMS 3",
            "",
            SIGNATURES,
            "END OF SHEET",
        ],
    );
}

/// What waits has a row behind the last item, and is no failure.
#[test]
fn what_waits() {
    let commands = [&[0x41][..], &INVENTORY, &INVENTORY[..5]].concat();
    is_page(
        &commands,
        &[
            "POLDRISK FAILURE SHEET",
            "commands.bin      13 bytes, 1 command taken",
            "tag.img           86 bytes",
            "",
            NAMES,
            "   1   0            1 byte dropped                1 no header                             [ ]   [ ]",
            "   -   8-12         5 bytes waiting               not a whole frame                       [ ]   [ ]",
            "",
            "GOOD 1 ERROR 0 DROPPED 1 0 0 0 0 LEFT 5",
            "FAILURES 1 = ERROR 0 + DROPPED 1, ITEMS 1",
            "",
            SIGNATURES,
            "END OF SHEET",
        ],
    );
}

#[test]
fn one_byte_waits() {
    is_page(
        &[0xBB],
        &[
            "POLDRISK FAILURE SHEET",
            "commands.bin       1 byte, 0 commands taken",
            "tag.img           86 bytes",
            "",
            NAMES,
            "   -   0            1 byte waiting                not a whole frame                       [ ]   [ ]",
            "",
            "GOOD 0 ERROR 0 DROPPED 0 0 0 0 0 LEFT 1",
            "FAILURES 0 = ERROR 0 + DROPPED 0, ITEMS 0",
            "",
            SIGNATURES,
            "END OF SHEET",
        ],
    );
}
