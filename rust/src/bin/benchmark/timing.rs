//! One turn of both sides on the same input, and medians over the rounds.

use crate::workloads::Does;
use poldrisk::beside::{difference, packed_of, take_over_behind};
use poldrisk::model::Bench;
use poldrisk::packed::{Packed, HELD, LIST_FULL, SELECTION_LENGTH};
use std::hint::black_box;
use std::time::Instant;

/// The time of a turn in microseconds, proved bench and model, and the calls that each made. Those that
/// found the list full are not among them, but their time is, and that of the acknowledges.
#[derive(Clone, Copy)]
pub struct Turn {
    pub proved: f64,
    pub model: f64,
    pub calls: u64,
}

impl Turn {
    pub fn ratio(&self) -> f64 {
        self.proved / self.model
    }
}

/// What one side took: its time, its calls, and the records that it acknowledged.
struct Side {
    time: f64,
    calls: u64,
    acknowledged: u64,
}

/// A full list is acknowledged whole, as the program does.
fn run_proved(lent: &mut Packed, input: &[u8]) -> Side {
    let (mut calls, mut acknowledged) = (1, 0);
    let started = Instant::now();
    loop {
        match lent.call(black_box(input)) {
            0 | 3 => calls += 1,
            LIST_FULL => {
                let held = lent.state[HELD];
                lent.acknowledge(black_box(held));
                acknowledged += held;
            }
            _ => break,
        }
    }
    Side {
        time: started.elapsed().as_secs_f64() * 1e6,
        calls,
        acknowledged,
    }
}

fn run_model(bench: &mut Bench, input: &[u8]) -> Side {
    let (mut calls, mut acknowledged) = (1, 0);
    let started = Instant::now();
    loop {
        match bench.call(black_box(input)) {
            0 | 3 => calls += 1,
            LIST_FULL => {
                let held = bench.held;
                bench.acknowledge(black_box(held));
                acknowledged += held;
            }
            _ => break,
        }
    }
    Side {
        time: started.elapsed().as_secs_f64() * 1e6,
        calls,
        acknowledged,
    }
}

/// Both from the same start to the end of the input: the proved bench, then the model.
pub fn turn(start: &Bench, input: &[u8], does: Does) -> Turn {
    let mut bench = start.clone();
    let mut lent = packed_of(start, &[0; SELECTION_LENGTH]);
    let proved = run_proved(&mut lent, input);
    let model = run_model(&mut bench, input);
    black_box((&lent, &bench));
    assert_eq!(proved.calls, model.calls);
    assert_eq!(proved.acknowledged, model.acknowledged);
    take_over_behind(&lent, &mut bench);
    let selection = packed_of(&bench, &lent.selection).selection;
    assert_eq!(difference(&lent, &bench, &selection), None);
    assert_eq!(bench.cursor, input.len() as u64);
    assert!(does.is_done(bench.cursor, bench.counts()));
    // each failure was listed
    let failures: u64 = bench.counts()[1..].iter().sum();
    assert_eq!(bench.held + model.acknowledged, failures);
    Turn {
        proved: proved.time,
        model: model.time,
        calls: proved.calls,
    }
}

/// The median of a figure over the rounds.
pub fn median<R>(rounds: &[R], figure: impl Fn(&R) -> f64) -> f64 {
    let mut figures: Vec<f64> = rounds.iter().map(figure).collect();
    figures.sort_by(f64::total_cmp);
    figures[figures.len() / 2]
}
