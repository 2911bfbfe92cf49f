//! Times the proved bench beside the independent model: the same inputs, in one run, turn by turn.
//!
//!     benchmark [ROUNDS]
//!
//! Each workload is run from a fresh crate to the end of the input, at 4, 8, 16 and 32 KiB. The list of
//! failures has room for 64 records, and is acknowledged whole whenever it is full. Printed
//! are the times, the ratio proved to model, and how time grows as the input doubles, each the
//! median over the rounds. Then the cost of a call, by what it does and how many tags there are. The
//! model's branch counters are compiled out here.

mod inputs;
mod timing;
mod workloads;

use poldrisk::model::Bench;
use timing::{median, turn, Turn};
use workloads::{sample_tags, Does, Workload};

const SIZES: [usize; 4] = [4 * 1024, 8 * 1024, 16 * 1024, 32 * 1024];
const GOAL_RATIO: f64 = 1.0;
const GOAL_GROWTH: f64 = 2.2;

/// The times of one round: a turn at every size. The ratio and the growths are those of a round, whose
/// turns lie close together: a slow spell of the machine then falls on both sides of them alike, and
/// does not make a ratio of its own.
type Round = [Turn; SIZES.len()];

fn rounds_of(workload: &Workload, rounds: usize) -> Vec<Round> {
    let inputs = SIZES.map(workload.input);
    let turn_at = |i: usize| turn(&workload.start, &inputs[i], workload.does);
    (0..rounds).map(|_| std::array::from_fn(turn_at)).collect()
}

/// Prints a workload's medians, and says whether it meets the goals.
fn report(workload: &Workload, rounds: usize) -> bool {
    println!("{}", workload.name);
    println!("   bytes   proved us    model us   ratio   growth of proved, of model");
    let rounds = rounds_of(workload, rounds);
    let mut met = true;
    for (i, size) in SIZES.into_iter().enumerate() {
        let proved = median(&rounds, |r| r[i].proved);
        let model = median(&rounds, |r| r[i].model);
        let ratio = median(&rounds, |r| r[i].ratio());
        print!("{size:8} {proved:11.1} {model:11.1} {ratio:7.2}");
        let mut missed = ratio > GOAL_RATIO;
        if i > 0 {
            let growth = median(&rounds, |r| r[i].proved / r[i - 1].proved);
            let of_model = median(&rounds, |r| r[i].model / r[i - 1].model);
            print!("   {growth:.2}, {of_model:.2}");
            missed |= growth > GOAL_GROWTH;
        }
        println!("{}", if missed { "   MISSED" } else { "" });
        met &= !missed;
    }
    met
}

/// Prints what one call costs that drops a byte, hands out a tag, or answers a Read, by the number of tags.
fn report_costs(rounds: usize) -> bool {
    let frames = [
        (
            "a dropped byte",
            vec![0x41],
            Does::Drop([true, false, false, false, false]),
        ),
        ("a tag handed out", inputs::inventory(), Does::Answer),
        (
            "a Read",
            inputs::read(),
            Does::Good {
                frame: 16,
                answers: 1,
            },
        ),
    ];
    println!("cost of one call           tags   proved ns    model ns   ratio");
    let mut met = true;
    for (name, frame, does) in frames {
        let input = frame.repeat(1000);
        for tags in [1, 4, 16] {
            let start = Bench::of_tags(&sample_tags(tags));
            let rounds: Vec<Turn> = (0..rounds).map(|_| turn(&start, &input, does)).collect();
            let ratio = median(&rounds, Turn::ratio);
            let [proved, model] = [
                median(&rounds, |t| t.proved / t.calls as f64 * 1e3),
                median(&rounds, |t| t.model / t.calls as f64 * 1e3),
            ];
            met &= ratio <= GOAL_RATIO;
            let missed = if ratio > GOAL_RATIO { "   MISSED" } else { "" };
            println!("{name:26} {tags:4} {proved:11.1} {model:11.1} {ratio:7.2}{missed}");
        }
    }
    met
}

fn main() {
    let rounds = std::env::args()
        .nth(1)
        .map_or(101, |a| a.parse().expect("ROUNDS is a number"));
    let mut met = true;
    for workload in workloads::all() {
        met &= report(&workload, rounds);
    }
    met &= report_costs(rounds);
    println!(
        "goal, at most {GOAL_RATIO} times the model and {GOAL_GROWTH} times for double the input: {}",
        if met { "met" } else { "MISSED" }
    );
}
