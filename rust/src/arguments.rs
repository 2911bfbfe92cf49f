//! What a test program is told on its command line: `[CALLS] [SEED] [TRIAL]`. Where it makes no calls of its
//! own, as with folders for another program, these are `[FOLDERS] [SEED] [FOLDER]`.

use std::time::{SystemTime, UNIX_EPOCH};

pub struct Arguments {
    /// How many calls to make, or folders to draw.
    pub calls: u64,
    /// What all random numbers are drawn from; by default the clock gives it.
    pub seed: u64,
    /// The one trial to make again, or folder to draw again.
    pub trial: Option<u64>,
}

impl Arguments {
    pub fn read() -> Arguments {
        Arguments::read_or(300_000)
    }

    /// With so many calls where none are named.
    pub fn read_or(calls: u64) -> Arguments {
        let mut numbers = std::env::args()
            .skip(1)
            .map(|a| a.parse().expect("the arguments are numbers"));
        Arguments {
            calls: numbers.next().unwrap_or(calls),
            seed: numbers.next().unwrap_or_else(seed_of_clock),
            trial: numbers.next(),
        }
    }
}

fn seed_of_clock() -> u64 {
    let now = SystemTime::now().duration_since(UNIX_EPOCH);
    now.map_or(1, |t| t.as_nanos() as u64 % 1_000_000_000_000)
}
