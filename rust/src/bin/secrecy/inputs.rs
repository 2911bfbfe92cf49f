//! Inputs that meet the premise on carried passwords.

use crate::premises::Dropped;
use crate::runs::Runs;
use poldrisk::generator::starts::crate_input;
use poldrisk::generator::{double, frame, Random};

/// The passwords that no accepted command may carry.
pub struct Secrets {
    access: Vec<[u8; 4]>,
    kill: Vec<[u8; 4]>,
}

impl Secrets {
    pub fn of(runs: &Runs, dropped: Dropped) -> Secrets {
        let (mut access, mut kill) = runs.secrets();
        match dropped {
            Dropped::AccessPasswordZero => access.retain(|p| *p != [0; 4]),
            Dropped::AccessPasswordCarried => access.clear(),
            Dropped::KillPasswordCarried => kill.clear(),
            _ => {}
        }
        Secrets { access, kill }
    }

    /// Whether some frame in the input carries one of them. Every place is looked at, reached by the
    /// cursor or not, so that the premise holds whatever is skipped.
    fn are_in(&self, input: &[u8]) -> bool {
        (0..input.len()).any(|at| self.are_carried_by(&input[at..]))
    }

    /// Whether a whole frame that carries one of them starts here.
    fn are_carried_by(&self, rest: &[u8]) -> bool {
        if rest.len() < 11 || rest[0] != 0xBB || rest[1] != 0 {
            return false;
        }
        let pl = double(rest, 3);
        if !(4..=80).contains(&pl) || rest.len() < 7 + pl {
            return false;
        }
        if frame(rest[2], &rest[5..5 + pl]) != rest[..7 + pl] {
            return false;
        }
        let given = &rest[5..9];
        match rest[2] {
            0x39 | 0x49 | 0x82 => self.access.iter().any(|p| p == given),
            0x65 => self.kill.iter().any(|p| p == given),
            _ => false,
        }
    }
}

/// An input that carries none of these.
pub fn allowed_input(random: &mut Random, runs: &Runs, secrets: &Secrets) -> Vec<u8> {
    let numbers = runs.two[0].places.chunks_exact(2);
    let places: Vec<_> = numbers.map(|pair| (pair[0], pair[1])).collect();
    loop {
        let decoy = runs.decoy(random);
        let input = match random.percent(15) {
            true => look_at_passwords(random),
            false => crate_input(random, &decoy, &places),
        };
        if !secrets.are_in(&input) {
            return input;
        }
    }
}

/// A Read or a Write of Reserved words with the zero password: all that a stranger can ask of them.
fn look_at_passwords(random: &mut Random) -> Vec<u8> {
    let pointer = random.below(4);
    let count = random.between(1, 4 - pointer);
    let mut parameters = vec![0, 0, 0, 0, 0, 0, pointer as u8, 0, count as u8];
    if random.percent(50) {
        return frame(0x39, &parameters);
    }
    parameters.extend(random.bytes(2 * count));
    frame(0x49, &parameters)
}
