//! What a row says of a failed command, and of its error byte.

use super::*;

type Change = fn(&mut [u8]);

/// A command's code and parameters, a change of the sample tag, and the command and the result of the row
/// that it comes to.
type Case<'a> = (u8, &'a [u8], Change, &'a str, &'a str);

/// Each of these alone gives a page with one row.
fn say(cases: &[Case]) {
    for (code, parameters, change, command, result) in cases {
        let mut image = sample_image();
        change(&mut image);
        let page = page(&frame(*code, parameters), &[image], false);
        let row = page.lines().nth(5).expect("a row");
        assert_eq!(row.len(), 99, "{row}");
        assert_eq!(&row[..20], "   1   0            ");
        assert_eq!(row[20..50].trim_end(), *command);
        assert_eq!(row[50..90].trim_end(), *result);
        assert_eq!(&row[90..], "[ ]   [ ]");
        assert!(page.contains("ITEMS 1\n"), "{page}");
    }
}

const RIGHT: [u8; 4] = [0, 0, 0xFF, 0xFF];
const WRONG: [u8; 4] = [0x12, 0x34, 0x56, 0x78];

fn with(password: [u8; 4], then: &[u8]) -> Vec<u8> {
    [&password, then].concat()
}

fn unchanged(_: &mut [u8]) {}

fn gone(image: &mut [u8]) {
    image[22] = 2;
}

fn all_locked(image: &mut [u8]) {
    image[20] = 3;
}

#[test]
fn inventory_and_read() {
    let read = with(RIGHT, &[3, 0, 7, 0, 2]);
    let far = with(RIGHT, &[2, 0xFF, 0xFF, 0, 32]);
    let reserved = with(RIGHT, &[0, 0, 0, 0, 4]);
    let wrong = with(WRONG, &[0, 0, 1, 0, 3]);
    let none = "15 no tag present that matches";
    let none_to_read = "09 no tag present that matches";
    let range = "A3 the bank has no such words";
    let password = "16 wrong access password";
    say(&[
        (0x22, &[], gone, "22 Inventory", none),
        (0x39, &read, gone, "39 Read User 7+2", none_to_read),
        (0x39, &far, unchanged, "39 Read TID 65535+32", range),
        (0x39, &wrong, unchanged, "39 Read Reserved 1+3", password),
    ]);
    let locked = "A4 region locked";
    say(&[(0x39, &reserved, all_locked, "39 Read Reserved 0+4", locked)]);
}

/// The data are a page's business as little as the password.
#[test]
fn write() {
    let user = with(RIGHT, &[3, 0, 7, 0, 1, 0xAB, 0xCD]);
    let wrong = with(WRONG, &[3, 0, 7, 0, 1, 0xAB, 0xCD]);
    let pc = with(RIGHT, &[1, 0, 1, 0, 1, 0x3C, 0x00]);
    let crc = with(RIGHT, &[1, 0, 0, 0, 2, 0x3C, 0x00, 0, 0]);
    let none = "10 no tag present that matches";
    let password = "16 wrong access password";
    let range = "B3 no such words, or PC does not fit";
    let locked = "B4 region locked, or EPC word 0";
    say(&[
        (0x49, &user, gone, "49 Write User 7+1", none),
        (0x49, &wrong, unchanged, "49 Write User 7+1", password),
        (0x49, &pc, unchanged, "49 Write EPC 1+1", range),
        (0x49, &crc, unchanged, "49 Write EPC 0+2", locked),
    ]);
}

#[test]
fn lock_and_kill() {
    // mask 0203, action 0080
    let masked = with(RIGHT, &[0x08, 0x0C, 0x80]);
    let lock = "82 Lock mask 0203 action 0080";
    let no_user: Change = |image| set_double(image, 16, 0);
    let permalocked: Change = |image| image[21] = 1;
    let no_password: Change = |image| image[24..28].fill(0);
    let none = "13 no tag present, or not secured";
    let different = "12 no tag, or another kill password";
    say(&[
        (0x82, &masked, gone, lock, none),
        (0x82, &masked, no_user, lock, "C3 the tag has no User words"),
        (0x65, &WRONG, unchanged, "65 Kill", different),
        (0x65, &RIGHT, gone, "65 Kill", different),
    ]);
    let change = "C4 a permalocked region would change";
    let no_kill = "D0 no kill password is stored";
    say(&[
        (0x82, &masked, permalocked, lock, change),
        (0x65, &WRONG, no_password, "65 Kill", no_kill),
    ]);
}

/// "A malformed command shows its code and no fields."
#[test]
fn malformed() {
    let cases: [(u8, &[u8]); 17] = [
        (0x22, &[0]),
        (0x39, &[0; 8]),
        (0x39, &[0; 10]),
        (0x39, &[0, 0, 0xFF, 0xFF, 4, 0, 0, 0, 1]),
        (0x39, &[0, 0, 0xFF, 0xFF, 3, 0, 0, 0, 0]),
        (0x39, &[0, 0, 0xFF, 0xFF, 3, 0, 0, 0, 33]),
        (0x39, &[0, 0, 0xFF, 0xFF, 3, 0, 0, 1, 1]),
        (0x49, &[0; 8]),
        (0x49, &[0, 0, 0xFF, 0xFF, 3, 0, 0, 0, 0]),
        (0x49, &[0, 0, 0xFF, 0xFF, 3, 0, 0, 0, 1, 1]),
        (0x49, &[0, 0, 0xFF, 0xFF, 4, 0, 0, 0, 1, 1, 2]),
        (0x82, &[0, 0, 0xFF, 0xFF, 0x10, 0, 0]),
        (0x82, &[0, 0, 0xFF, 0xFF, 0, 0]),
        (0x65, &[0, 0, 0xFF]),
        (0x0C, &[0x00, 0, 0, 0, 0, 0, 0]),
        (0x77, &[]),
        (0xBB, &[]),
    ];
    for (code, parameters) in cases {
        let name = format!("{code:02X}");
        let wrong_field = "17 code not listed, or a wrong field";
        say(&[(code, parameters, unchanged, &name, wrong_field)]);
    }
}
