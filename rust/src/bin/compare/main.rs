//! Feeds the same random calls and acknowledges to the proved bench and to the independent model, and
//! compares number, whole memory, whole output, places, all 39 bytes of the selection, the list of failures
//! and all thirteen numbers of the state after each. Of the list what stands behind the records held is
//! left out where it is free: after a call that adds one, and after an acknowledge.
//!
//!     compare [CALLS] [SEED] [TRIAL]
//!
//! A trial is one crate with its row of calls, drawn from the seed and the trial's number
//! alone, so that a difference is replayed by naming both. A run in which some branch of the model
//! was never taken, or some situation never met, counts as failed: it would have compared less than it
//! says.

mod handing_out;
mod listing;
mod pair;
mod seen;
mod shapes;
mod trial;

use poldrisk::arguments::Arguments;
use poldrisk::generator::Random;
use seen::Seen;
use std::process::exit;
use trial::Trial;

/// Makes one trial, and gives the number of its calls.
fn try_out(seed: u64, number: u64, seen: &mut Seen) -> u64 {
    let random = Random::new(seed ^ number.wrapping_mul(0xD129_0C6B_4A1E_35F7));
    let mut trial = Trial::new(random, seen);
    if let Err(different) = trial.run() {
        println!("DIFFERENT behind {} calls: {}", trial.calls, different.0);
        println!("trial {number}, seed {seed}; replay: compare 1 {seed} {number}");
        exit(1);
    }
    trial.calls
}

fn main() {
    let Arguments {
        calls: wanted,
        seed,
        trial: only,
    } = Arguments::read();
    let mut seen = Seen::new();
    if let Some(only) = only {
        let calls = try_out(seed, only, &mut seen);
        println!("trial {only} of seed {seed}: {calls} calls, no difference");
        return;
    }
    println!("comparing {wanted} calls, seed {seed}");
    let mut calls = 0;
    let mut trials = 0;
    while calls < wanted {
        calls += try_out(seed, trials, &mut seen);
        trials += 1;
    }
    println!("{calls} calls in {trials} trials, seed {seed}: no difference");
    if !seen.report() {
        exit(1);
    }
}
