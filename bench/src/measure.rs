//! Interleaved rounds, of which the least counts.

use std::time::Instant;

/// Rounds of a pass, and passes over all calls, so that a busy moment does not
/// meet all rounds of a call.
const ROUNDS: usize = 31;
pub const PASSES: usize = 3;
pub const ALL_ROUNDS: usize = ROUNDS * PASSES;
const ROUND_NS: u128 = 200_000;

pub struct Line {
    pub name: &'static str,
    pub bytes: usize,
    pub here: f64,
    pub rust: f64,
}

impl Line {
    pub fn ratio(&self) -> f64 {
        self.here / self.rust
    }

    /// The least of two measurements of a call.
    pub fn least(&mut self, other: &Line) {
        self.here = self.here.min(other.here);
        self.rust = self.rust.min(other.rust);
    }
}

fn time(f: &mut dyn FnMut(usize), turns: usize) -> u128 {
    let start = Instant::now();
    f(turns);
    start.elapsed().as_nanos()
}

/// As many turns as take a round.
fn turns(f: &mut dyn FnMut(usize)) -> usize {
    let mut turns = 1;
    while time(f, turns) < ROUND_NS {
        turns *= 2;
    }
    turns
}

/// Measures a call on both sides; each is told how many turns to make.
pub fn measure(
    name: &'static str,
    bytes: usize,
    here: &mut dyn FnMut(usize),
    rust: &mut dyn FnMut(usize),
) -> Line {
    let turns = [turns(here), turns(rust)];
    let mut least = [u128::MAX; 2];
    for _ in 0..ROUNDS {
        least[0] = least[0].min(time(here, turns[0]));
        least[1] = least[1].min(time(rust, turns[1]));
    }
    Line {
        name,
        bytes,
        here: least[0] as f64 / turns[0] as f64,
        rust: least[1] as f64 / turns[1] as f64,
    }
}
