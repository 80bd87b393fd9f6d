//! Times a call: several rounds over a batch, of which the best and the median are kept.

use std::fmt;
use std::time::Instant;

const ROUNDS: usize = 31;

/// Nanoseconds a call, of the best round and of the median one.
#[derive(Debug, Copy, Clone)]
pub struct Times {
    pub best: f64,
    pub median: f64,
}

impl fmt::Display for Times {
    fn fmt(&self, f: &mut fmt::Formatter<'_>) -> fmt::Result {
        write!(f, "{:10.2} {:10.2}", self.best / 1e3, self.median / 1e3)
    }
}

/// Nanoseconds a call in one round, on states that `make` makes; making them is not timed.
fn round<S>(batch: usize, make: &mut impl FnMut() -> S, call: &mut impl FnMut(&mut S)) -> f64 {
    let mut states: Vec<S> = (0..batch).map(|_| make()).collect();
    let start = Instant::now();
    for state in &mut states {
        call(state);
    }
    start.elapsed().as_nanos() as f64 / batch as f64
}

fn times(mut rounds: Vec<f64>) -> Times {
    rounds.sort_by(f64::total_cmp);
    Times {
        best: rounds[0],
        median: rounds[ROUNDS / 2],
    }
}

/// Times `call` on states that `make` makes.
pub fn time<S>(batch: usize, mut make: impl FnMut() -> S, mut call: impl FnMut(&mut S)) -> Times {
    times(
        (0..ROUNDS)
            .map(|_| round(batch, &mut make, &mut call))
            .collect(),
    )
}

/// Times two calls by turns, so that whatever else the machine does falls on both.
pub fn by_turns<S, T>(
    batch: usize,
    mut make: impl FnMut() -> S,
    mut ours: impl FnMut(&mut S),
    mut make_theirs: impl FnMut() -> T,
    mut theirs: impl FnMut(&mut T),
) -> [Times; 2] {
    let rounds: Vec<[f64; 2]> = (0..ROUNDS)
        .map(|_| {
            [
                round(batch, &mut make, &mut ours),
                round(batch, &mut make_theirs, &mut theirs),
            ]
        })
        .collect();
    [0, 1].map(|side| times(rounds.iter().map(|pair| pair[side]).collect()))
}

/// Prints the times of two or more sides, and how the first compares with the second.
pub fn row(call: &str, case: &str, sides: &[(&str, Times)]) {
    for (side, times) in sides {
        println!("{call:8} {case:12} {side:28} {times}");
    }
    if let [(_, ours), (_, theirs), ..] = sides {
        println!(
            "{call:8} {case:12} {:28} {:10.2} {:10.2}",
            "ratio of the first two",
            ours.best / theirs.best,
            ours.median / theirs.median
        );
    }
}
