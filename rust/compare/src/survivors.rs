//! What a reclaim leaves, from document 02's sentences (A.4), by brute force on trees: a set of blocks that grows until it stays,
//! and a map of numbers.

use oracle::plain::{Block, Command, Script};
use oracle::rules::InUse;
use std::collections::{BTreeMap, BTreeSet};

/// "A list of up to 256 root blocks".
pub const ROOTS: usize = 256;

/// The new number of each block that is left, by its old one.
pub type Numbers = BTreeMap<usize, usize>;

/// The block that a command names.
fn target(command: &mut Command) -> Option<&mut usize> {
    match command {
        Command::Goto(block) | Command::If(_, block) | Command::EndIf(block) => Some(block),
        _ => None,
    }
}

/// Every link of a block: "next, else or command targets".
fn links(block: &mut Block) -> Vec<&mut usize> {
    let Block::Code(code) = block else {
        return vec![];
    };
    let targets = code.commands.iter_mut().filter_map(target);
    let ends = [&mut code.next, &mut code.else_block];
    targets.chain(ends.into_iter().flatten()).collect()
}

/// The block with its links renumbered.
pub fn renamed(block: &Block, numbers: &Numbers) -> Block {
    let mut block = block.clone();
    for link in links(&mut block) {
        *link = numbers[link];
    }
    block
}

/// The roots, and what they reach.
fn reached(script: &Script, roots: &[u32]) -> BTreeSet<usize> {
    let linked: Vec<Vec<usize>> = script
        .blocks
        .iter()
        .map(|block| {
            links(&mut block.clone())
                .into_iter()
                .map(|link| *link)
                .collect()
        })
        .collect();
    let mut all: BTreeSet<usize> = roots.iter().map(|root| *root as usize).collect();
    loop {
        let before = all.len();
        let more: Vec<usize> = all
            .iter()
            .flat_map(|block| &linked[*block])
            .copied()
            .collect();
        all.extend(more);
        if all.len() == before {
            return all;
        }
    }
}

/// Whether 18 is the answer: "list is too long, or with a root that is not a block".
pub fn bad_roots(blocks: usize, roots: &[u32]) -> bool {
    roots.len() > ROOTS || roots.iter().any(|root| *root as usize >= blocks)
}

/// The script that is left, its counts taken afresh, and its blocks' new numbers.
pub fn reclaimed(before: &InUse, roots: &[u32]) -> (InUse, Numbers) {
    let all = reached(&before.script, roots);
    let numbers: Numbers = all
        .iter()
        .enumerate()
        .map(|(new, old)| (*old, new))
        .collect();
    let blocks = &before.script.blocks;
    let script = Script {
        blocks: all.iter().map(|b| renamed(&blocks[*b], &numbers)).collect(),
    };
    let births = all.iter().map(|block| before.births[*block]).collect();
    (InUse::born(script, births, before.compiles), numbers)
}
