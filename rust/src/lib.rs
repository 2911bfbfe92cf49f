//! The proved bench for Rust programs: a safe wrapper ([`Bench`]) over the static library, whose C
//! interface [`packed`] has as it is. Beside it, an independent model of the same rules ([`model`]),
//! the generators that feed both ([`generator`]), the two held against each other ([`beside`]) and
//! what the test programs are told ([`arguments`]).

pub mod answer;
pub mod arguments;
pub mod bench;
pub mod beside;
pub mod generator;
pub mod model;
pub mod packed;
pub mod record;

pub use answer::{Answer, Reason};
pub use bench::{Bench, Place, Tally};
pub use record::{Failure, Record};
