//! Draws folders of commands and tags, and holds the page that the proved program `poldrisk_sheet` prints of
//! each against the independent model's, byte for byte.
//!
//!     sheets [FOLDERS] [SEED] [FOLDER]
//!
//! A folder is drawn from the seed and its number alone, so that a difference is replayed by naming both.
//! The folder that it was found in is kept. The program is `crates/poldrisk_sheet/out/poldrisk_sheet` of the
//! repository, or the one that the variable `POLDRISK_SHEET` names. A run in which some situation was never
//! met counts as failed: it would have compared less than it says.

mod drawing;
mod expected;
mod folder;
mod inputs;
mod program;
mod seen;
mod wanted;

use drawing::draw;
use expected::Expected;
use poldrisk::arguments::Arguments;
use poldrisk::generator::Random;
use program::Program;
use seen::Seen;
use std::process::exit;

/// As many as a run takes that is told no number.
const FOLDERS: u64 = 1500;

/// Draws one folder, and compares its two pages.
fn try_out(seed: u64, number: u64, program: &Program, seen: &mut Seen) {
    let mut random = Random::new(seed ^ number.wrapping_mul(0x8A5C_D789_635D_2DFF));
    let folder = draw(&mut random);
    let expected = Expected::of(&folder);
    if let Err(different) = program.compare(&folder, number, &expected.page) {
        println!("DIFFERENT in folder {number} of seed {seed}: {different}");
        println!("replay: sheets 1 {seed} {number}");
        exit(1);
    }
    seen.add(&folder, &expected);
}

fn main() {
    let Arguments {
        calls: wanted,
        seed,
        trial: only,
    } = Arguments::read_or(FOLDERS);
    let program = match Program::new(seed) {
        Ok(program) => program,
        Err(why) => {
            println!("sheets: {why}");
            exit(2);
        }
    };
    let mut seen = Seen::default();
    if let Some(only) = only {
        try_out(seed, only, &program, &mut seen);
        println!("folder {only} of seed {seed}: no difference");
        return;
    }
    println!("comparing the sheets of {wanted} folders, seed {seed}");
    for number in 0..wanted {
        try_out(seed, number, &program, &mut seen);
    }
    println!("{wanted} folders, seed {seed}: no difference");
    // leaves nothing behind, which an exit would
    drop(program);
    if !seen.report() {
        exit(1);
    }
}
