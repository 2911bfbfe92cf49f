//! The secrecy demand, tried on the proved bench alone: two crates that differ only in the password bytes
//! of some tags get the same calls and acknowledges, and every answer, output, selection, cursor, count,
//! length, reason, number to hand out from and failure record held is compared.
//!
//!     secrecy [CALLS] [SEED]
//!
//! The premises are those of the demand, for every tag that differs: all four passwords nonzero, both
//! password regions locked; no Read, Write or Lock that carries an access password of such a tag in
//! either run, no Kill that carries a kill password of one; the same selection and the same tags still to
//! hand out at the start, and an empty list of the same room. What stands behind the records may differ.
//! Then the same is run with one premise dropped at a time, for one tag or one run, and each of these
//! must show a difference: else the test could not fail, and would show nothing.

mod inputs;
mod premises;
mod reached;
mod runs;
mod starts;

use inputs::{allowed_input, Secrets};
use poldrisk::arguments::Arguments;
use poldrisk::generator::lists::acknowledged;
use poldrisk::generator::Random;
use poldrisk::packed::{CURSOR, HELD, LIST_FULL};
use premises::Dropped;
use reached::{aim_of, At, Reached};
use runs::Runs;
use std::process::exit;

/// Calls on both, as long as they agree. Gives the calls made, and whether they agreed.
fn trial(random: &mut Random, dropped: Dropped, reached: &mut Reached) -> (u64, bool) {
    let mut runs = Runs::new(random, dropped);
    reached.crate_with(runs.hidden.len());
    let secrets = Secrets::of(&runs, dropped);
    let mut calls = 0;
    for _ in 0..random.between(1, 10) {
        let input = allowed_input(random, &runs, &secrets);
        let cursor = random.pick(&[0, 0, 0, 0, 0, 0, 1, input.len() as u64 + 1]);
        for run in &mut runs.two {
            run.state[CURSOR] = cursor;
        }
        let (made, agreed) = walk(random, &mut runs, &input, reached);
        calls += made;
        if !agreed {
            return (calls, false);
        }
    }
    (calls, true)
}

/// Calls on one input to its end, with acknowledges among them: now and then, and where the list is full.
fn walk(random: &mut Random, runs: &mut Runs, input: &[u8], reached: &mut Reached) -> (u64, bool) {
    let mut calls = 0;
    let mut full = false;
    loop {
        if full || random.percent(8) {
            calls += 1;
            if !acknowledge(random, runs, reached) {
                return (calls, false);
            }
        }
        let (number, agreed) = both(runs, input, reached);
        calls += 1;
        // a list that is still full was acknowledged in vain, and the next input meets it again
        let still_full = full && number == LIST_FULL;
        if !agreed || still_full || ![0, 3, LIST_FULL].contains(&number) {
            return (calls, agreed);
        }
        full = number == LIST_FULL;
    }
}

/// An acknowledge of both, of a number that is drawn by what the first of them holds. Says whether they
/// agree after it.
fn acknowledge(random: &mut Random, runs: &mut Runs, reached: &mut Reached) -> bool {
    let held = runs.two[0].state[HELD];
    let count = acknowledged(random, held);
    let [one, other] = [0, 1].map(|run| runs.two[run].acknowledge(count));
    let agreed = one == other && runs.agree();
    if agreed {
        reached.acknowledge(one, count, held);
    }
    agreed
}

/// One call on both. Gives its number, and whether they agree after it.
fn both(runs: &mut Runs, input: &[u8], reached: &mut Reached) -> (u64, bool) {
    let at = At::of(&runs.two[0], input);
    let aim = at.may_be_aimed().then(|| aim_of(&runs.two[0])).flatten();
    let [one, other] = [0, 1].map(|run| runs.two[run].call(input));
    let agreed = one == other && runs.agree();
    if agreed {
        reached.call(one, aim, &at, &runs.two[0], &runs.hidden);
    }
    (one, agreed)
}

/// Runs trials until the calls are made or two runs differ.
fn try_out(seed: u64, wanted: u64, dropped: Dropped) -> (u64, bool, Reached) {
    let mut reached = Reached::default();
    let mut calls = 0;
    let mut number = 0;
    while calls < wanted {
        let mut random = Random::new(seed ^ u64::wrapping_mul(number, 0xA24B_AED4_963E_E407));
        let (made, agreed) = trial(&mut random, dropped, &mut reached);
        calls += made;
        if !agreed {
            println!("  trial {number}, after {calls} calls");
            return (calls, false, reached);
        }
        number += 1;
    }
    (calls, true, reached)
}

fn main() {
    let Arguments {
        calls: wanted,
        seed,
        ..
    } = Arguments::read();
    println!("secrecy over {wanted} calls, seed {seed}");
    let (calls, agreed, reached) = try_out(seed, wanted, Dropped::None);
    if !agreed {
        println!("DIFFERENT under the premises: the passwords show");
        exit(1);
    }
    println!("{calls} calls under the premises: no difference");
    if !reached.report() {
        println!("the test did not try all that it is to try");
        exit(1);
    }
    for dropped in Dropped::EACH {
        println!("with a premise dropped, {dropped:?}: a difference is wanted");
        if try_out(seed, wanted, dropped).1 {
            println!("NO DIFFERENCE: the test does not see what this premise keeps out");
            exit(1);
        }
    }
}
