//! Times the proved CRC engines beside a plain loop and a table in Rust: the same bytes, in one run, turn by turn.
//!
//!     crc [ROUNDS]
//!     crc count ENGINE SIZE
//!
//! First all engines are compared on lists of every length up to 300. Printed are for each size the times, the ratio to the
//! table in Rust, each the median over the rounds, and how many instructions a call takes. These are counted by valgrind,
//! which runs this program once more for each engine and size, as `crc count`; where there is no valgrind the column is empty.
//!
//! The compiler knows the plain loop of a CRC and makes a table of it, where the loop counts the bits up. So the Rust loop stands here twice: as it
//! would be written, and counting down, which leaves it the eight steps that it is.

use poldrisk::generator::Random;
use std::env::{args, current_exe};
use std::hint::black_box;
use std::process::Command;
use std::time::Instant;

const SIZES: [usize; 3] = [14, 64, 4096];
const COUNTED: usize = 1000;
const GOAL_TO_TABLE: f64 = 1.0;
const GOAL_TO_PLAIN: f64 = 4.0;

type Table = [u16; 256];

extern "C" {
    fn poldrisk_tag_crc_plain(bytes: *const u8, length: usize) -> u16;
    fn poldrisk_tag_crc_shifts(bytes: *const u8, length: usize) -> u16;
    fn poldrisk_tag_crc_bound(bytes: *const u8, length: usize) -> u16;
    fn poldrisk_tag_crc_lent(near: &Table, far: &Table, bytes: *const u8, length: usize) -> u16;
    fn poldrisk_tag_tables(near: &mut Table, far: &mut Table);
    fn poldrisk_reader_crc_bound(bytes: *const u8, length: usize) -> u16;
    fn poldrisk_reader_crc_lent(near: &Table, far: &Table, bytes: *const u8, length: usize) -> u16;
    fn poldrisk_reader_tables(near: &mut Table, far: &mut Table);
}

/// The tables that are lent, as the proved library hands them out.
struct Lent {
    tag: (Table, Table),
    reader: (Table, Table),
}

fn lent() -> Lent {
    let mut lent = Lent {
        tag: ([0; 256], [0; 256]),
        reader: ([0; 256], [0; 256]),
    };
    // SAFETY: both functions store 256 words behind each of their two pointers.
    unsafe {
        poldrisk_tag_tables(&mut lent.tag.0, &mut lent.tag.1);
        poldrisk_reader_tables(&mut lent.reader.0, &mut lent.reader.1);
    }
    lent
}

// SAFETY of the six below: a slice is passed as its pointer and its length, a table as a pointer to 256 words; they are only read.

fn tag_plain(_: &Lent, bytes: &[u8]) -> u16 {
    unsafe { poldrisk_tag_crc_plain(bytes.as_ptr(), bytes.len()) }
}

fn tag_shifts(_: &Lent, bytes: &[u8]) -> u16 {
    unsafe { poldrisk_tag_crc_shifts(bytes.as_ptr(), bytes.len()) }
}

fn tag_lent(lent: &Lent, bytes: &[u8]) -> u16 {
    unsafe { poldrisk_tag_crc_lent(&lent.tag.0, &lent.tag.1, bytes.as_ptr(), bytes.len()) }
}

fn tag_bound(_: &Lent, bytes: &[u8]) -> u16 {
    unsafe { poldrisk_tag_crc_bound(bytes.as_ptr(), bytes.len()) }
}

fn reader_lent(lent: &Lent, bytes: &[u8]) -> u16 {
    unsafe { poldrisk_reader_crc_lent(&lent.reader.0, &lent.reader.1, bytes.as_ptr(), bytes.len()) }
}

fn reader_bound(_: &Lent, bytes: &[u8]) -> u16 {
    unsafe { poldrisk_reader_crc_bound(bytes.as_ptr(), bytes.len()) }
}

const fn high_bit(polynomial: u16, register: u16) -> u16 {
    if register & 0x8000 != 0 {
        register << 1 ^ polynomial
    } else {
        register << 1
    }
}

const fn low_bit(polynomial: u16, register: u16) -> u16 {
    if register & 1 != 0 {
        register >> 1 ^ polynomial
    } else {
        register >> 1
    }
}

#[inline(always)]
fn high_byte(polynomial: u16, register: u16, b: u8) -> u16 {
    let mut worked = register ^ (b as u16) << 8;
    for _ in 0..8 {
        worked = high_bit(polynomial, worked);
    }
    worked
}

#[inline(always)]
fn low_byte(polynomial: u16, register: u16, b: u8) -> u16 {
    let mut worked = register ^ b as u16;
    for _ in 0..8 {
        worked = low_bit(polynomial, worked);
    }
    worked
}

fn rust_tag_plain(_: &Lent, bytes: &[u8]) -> u16 {
    !bytes.iter().fold(0xFFFF, |r, b| high_byte(0x1021, r, *b))
}

fn rust_tag_down(_: &Lent, bytes: &[u8]) -> u16 {
    !bytes.iter().fold(0xFFFF, |register, b| {
        let mut worked = register ^ (*b as u16) << 8;
        let mut bits = 8;
        while bits > 0 {
            worked = high_bit(0x1021, worked);
            bits -= 1;
        }
        worked
    })
}

fn rust_reader_plain(_: &Lent, bytes: &[u8]) -> u16 {
    bytes.iter().fold(0xFFFF, |r, b| low_byte(0x8408, r, *b))
}

fn rust_reader_down(_: &Lent, bytes: &[u8]) -> u16 {
    bytes.iter().fold(0xFFFF, |register, b| {
        let mut worked = register ^ *b as u16;
        let mut bits = 8;
        while bits > 0 {
            worked = low_bit(0x8408, worked);
            bits -= 1;
        }
        worked
    })
}

const fn table(high: bool) -> Table {
    let mut table = [0; 256];
    let mut i = 0;
    while i < 256 {
        let mut word = if high { (i as u16) << 8 } else { i as u16 };
        let mut bit = 0;
        while bit < 8 {
            word = if high {
                high_bit(0x1021, word)
            } else {
                low_bit(0x8408, word)
            };
            bit += 1;
        }
        table[i] = word;
        i += 1;
    }
    table
}

static HIGH: Table = table(true);
static LOW: Table = table(false);

fn rust_tag_table(_: &Lent, bytes: &[u8]) -> u16 {
    !bytes.iter().fold(0xFFFF, |r: u16, b| {
        r << 8 ^ HIGH[((r >> 8) as u8 ^ b) as usize]
    })
}

fn rust_reader_table(_: &Lent, bytes: &[u8]) -> u16 {
    bytes
        .iter()
        .fold(0xFFFF, |r: u16, b| r >> 8 ^ LOW[(r as u8 ^ b) as usize])
}

type Engine = (&'static str, fn(&Lent, &[u8]) -> u16);

/// The engines of one polynomial: first the table in Rust, then the Rust loop that is no table, then the proved one with lent
/// tables, which the goals are about; behind these the others.
struct Polynomial {
    name: &'static str,
    engines: &'static [Engine],
}

const POLYNOMIALS: [Polynomial; 2] = [
    Polynomial {
        name: "the tag's, 1021 high bit first",
        engines: &[
            ("Rust, table", rust_tag_table),
            ("Rust, loop that counts down", rust_tag_down),
            ("proved, tables lent", tag_lent),
            ("proved, tables in the call", tag_bound),
            ("proved, shifts, as in the bench", tag_shifts),
            ("proved, plain", tag_plain),
            ("Rust, loop", rust_tag_plain),
        ],
    },
    Polynomial {
        name: "the reader's, 8408 low bit first",
        engines: &[
            ("Rust, table", rust_reader_table),
            ("Rust, loop that counts down", rust_reader_down),
            ("proved, tables lent", reader_lent),
            ("proved, tables in the call", reader_bound),
            ("Rust, loop", rust_reader_plain),
        ],
    },
];

fn bytes_of(size: usize) -> Vec<u8> {
    let mut random = Random::new(size as u64 + 1);
    (0..size).map(|_| random.byte()).collect()
}

fn compare(lent: &Lent) {
    for size in 0..=300 {
        let bytes = bytes_of(size);
        for polynomial in &POLYNOMIALS {
            let (_, table) = polynomial.engines[0];
            for (name, engine) in polynomial.engines {
                assert_eq!(
                    engine(lent, &bytes),
                    table(lent, &bytes),
                    "{name}, {size} bytes"
                );
            }
        }
    }
}

/// Nanoseconds of one call, from as many as take some tens of microseconds.
fn time(engine: fn(&Lent, &[u8]) -> u16, lent: &Lent, bytes: &[u8]) -> f64 {
    let calls = (40_000 / bytes.len()).max(20);
    let mut sum = 0;
    let started = Instant::now();
    for _ in 0..calls {
        sum ^= engine(lent, black_box(bytes));
    }
    let time = started.elapsed().as_secs_f64();
    black_box(sum);
    time * 1e9 / calls as f64
}

fn median(mut figures: Vec<f64>) -> f64 {
    figures.sort_by(f64::total_cmp);
    figures[figures.len() / 2]
}

/// What valgrind counts: the calls, and nothing else.
#[inline(never)]
#[no_mangle]
fn counted_calls(engine: fn(&Lent, &[u8]) -> u16, lent: &Lent, bytes: &[u8]) {
    for _ in 0..COUNTED {
        black_box(engine(lent, black_box(bytes)));
    }
}

fn instructions(polynomial: usize, engine: usize, size: usize) -> Option<usize> {
    let run = Command::new("valgrind")
        .args([
            "--tool=callgrind",
            "--callgrind-out-file=/dev/null",
            "--toggle-collect=counted_calls",
        ])
        .arg(current_exe().ok()?)
        .args([
            "count",
            &format!("{polynomial}.{engine}"),
            &size.to_string(),
        ])
        .output()
        .ok()?;
    let said = String::from_utf8_lossy(&run.stderr).into_owned();
    let line = said.lines().find(|l| l.contains("Collected :"))?;
    let collected: usize = line.rsplit(' ').next()?.parse().ok()?;
    Some(collected / COUNTED)
}

fn report(p: usize, size: usize, rounds: usize, lent: &Lent) -> bool {
    let polynomial = &POLYNOMIALS[p];
    let bytes = bytes_of(size);
    let rounds: Vec<Vec<f64>> = (0..rounds)
        .map(|_| {
            polynomial
                .engines
                .iter()
                .map(|(_, e)| time(*e, lent, &bytes))
                .collect()
        })
        .collect();
    println!("{}, {size} bytes", polynomial.name);
    println!("{:34}       ns   to the table   instructions", "");
    for (i, (name, _)) in polynomial.engines.iter().enumerate() {
        let counted = instructions(p, i, size).map_or("-".to_string(), |n| n.to_string());
        println!(
            "{name:34} {:8.1} {:14.2} {counted:>14}",
            median(rounds.iter().map(|r| r[i]).collect()),
            median(rounds.iter().map(|r| r[i] / r[0]).collect()),
        );
    }
    let to_table = median(rounds.iter().map(|r| r[2] / r[0]).collect());
    let to_plain = median(rounds.iter().map(|r| r[1] / r[2]).collect());
    println!("lent tables: {to_table:.2} of the table's time; {to_plain:.1} times as fast as the loop that is no table");
    to_table <= GOAL_TO_TABLE && to_plain >= GOAL_TO_PLAIN
}

fn main() {
    let words: Vec<String> = args().skip(1).collect();
    let lent = lent();
    if words.first().is_some_and(|w| w == "count") {
        let (p, e) = words[1].split_once('.').expect("ENGINE is two numbers");
        let number = |w: &str| w.parse::<usize>().expect("a number");
        let (_, engine) = POLYNOMIALS[number(p)].engines[number(e)];
        return counted_calls(engine, &lent, &bytes_of(number(&words[2])));
    }
    compare(&lent);
    let rounds = words
        .first()
        .map_or(101, |w| w.parse().expect("ROUNDS is a number"));
    let mut met = true;
    for p in 0..POLYNOMIALS.len() {
        for size in SIZES {
            met &= report(p, size, rounds, &lent);
        }
    }
    println!(
        "goal, lent tables at most {GOAL_TO_TABLE} of the table's time and {GOAL_TO_PLAIN} times as fast as the loop: {}",
        if met { "met" } else { "MISSED" }
    );
}
