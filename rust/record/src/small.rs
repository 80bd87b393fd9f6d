//! Cases of few bytes: the input of the program `replay` is kept in the repository.

use crate::compile_cases::{self, Case};
use crate::random::Random;
use crate::{format, limits, parse_cases};

/// The kinds of inputs in turn: compiled scripts (4 and 5) and towers (7) are long and come less often.
const KINDS: [usize; 21] = [
    0, 1, 2, 3, 4, 6, 8, 9, 0, 1, 2, 3, 5, 6, 8, 9, 0, 2, 7, 8, 9,
];

/// A random input of `slots` of so many bytes is taken as it comes.
const INPUT: usize = 250;

/// A random list of compiles of so many bytes is taken as it comes.
const LIST: usize = 900;

/// Of so many larger ones in a row the shortest is taken.
const DRAWS: usize = 4;

/// The most bytes of an input at a limit: 4,096 blocks still go in.
const LARGE_INPUT: usize = 10_000;

/// The most bytes of a list at a limit: all blocks or all commands still go in.
const LARGE_LIST: usize = 20_000;

/// Random inputs of `slots`, and behind them those at a limit.
pub fn parse_inputs(random: &mut Random, count: usize) -> Vec<Vec<u8>> {
    let mut inputs: Vec<Vec<u8>> = (0..count)
        .map(|i| {
            small(
                || parse_cases::input(random, KINDS[i % KINDS.len()]),
                Vec::len,
                INPUT,
            )
        })
        .collect();
    let at_limits = limits::parse_inputs().into_iter();
    inputs.extend(at_limits.filter(|input| input.len() <= LARGE_INPUT));
    inputs
}

/// Random lists of compiles, and behind them those at a limit.
pub fn compile_cases(random: &mut Random, count: usize) -> Vec<Case> {
    let mut cases: Vec<Case> = (0..count)
        .map(|_| small(|| compile_cases::case(random), format::length, LIST))
        .collect();
    let at_limits = limits::compile_cases().into_iter();
    cases.extend(at_limits.filter(|case| format::length(case) <= LARGE_LIST));
    cases
}

fn small<T>(mut draw: impl FnMut() -> T, length: impl Fn(&T) -> usize, most: usize) -> T {
    let mut kept = draw();
    for _ in 1..DRAWS {
        if length(&kept) <= most {
            return kept;
        }
        let next = draw();
        if length(&next) < length(&kept) {
            kept = next;
        }
    }
    kept
}
