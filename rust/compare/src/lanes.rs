//! Walks for many saves: the library's against single runs of the hand-written interpreter, and 22 by walking every path of links.

use crate::tally::Tally;
use crate::{convert, interpret, runs, saves};
use locustkeno::{Arrays, LANES, Save, Script};
use oracle::image;
use oracle::plain::Sheet;
use record::parse_cases;
use record::random::Random;
use std::collections::BTreeSet;

const BUDGET: u32 = 4_096;

/// What a walk answers: the refusal, each save's refusal and count, and how many blocks were read.
type Answer = (u8, Vec<(u8, u32)>, usize);

/// Next, else and the targets of all commands, of a block that is code.
fn links(a: &Arrays, block: usize) -> Vec<usize> {
    let words = &a.bw[5 * block..][..5];
    if words[0] != 1 {
        return vec![];
    }
    let (first, many) = (usize::from(words[1]), usize::from(words[2]));
    let named = words[3..].iter().filter(|link| **link > 0);
    let commands = a.cw.chunks_exact(4).skip(first).take(many);
    let targets = commands.filter(|command| matches!(command[0], 1 | 3 | 4));
    named
        .map(|link| usize::from(*link) - 1)
        .chain(targets.map(|command| usize::from(command[3])))
        .collect()
}

/// Whether each block that one or more links lead to from `setup` links to lower numbers only.
fn falls(a: &Arrays, setup: usize) -> bool {
    let mut led = BTreeSet::new();
    let mut waiting = links(a, setup);
    while let Some(block) = waiting.pop() {
        if led.insert(block) {
            waiting.extend(links(a, block));
        }
    }
    led.iter()
        .all(|block| links(a, *block).iter().all(|link| link < block))
}

/// The blocks that a run enters.
fn trail(a: &Arrays, setup: u32, save: &Save) -> BTreeSet<usize> {
    let (mut save, mut block) = (save.clone(), setup as usize);
    let mut entered = BTreeSet::new();
    for _ in 0..BUDGET {
        entered.insert(block);
        match interpret::step(a, block, &mut save) {
            Ok(Some(next)) => block = next.into(),
            _ => break,
        }
    }
    entered
}

/// The walk by single runs, with the saves as they leave them.
fn by_runs(sheet: &Sheet, a: &Arrays, setup: u32, saves: &mut [Save], fine: &Save) -> Answer {
    let refused = |number| (number, vec![], 0);
    let (first, _) = interpret::run(sheet, a, setup, &mut fine.clone(), 0);
    if (1..=7).contains(&first) {
        return refused(first);
    }
    if !saves.iter().all(|save| interpret::save_ok(sheet, save)) {
        return refused(12);
    }
    if saves.is_empty() || saves.len() > LANES || !falls(a, setup as usize) {
        return refused(22);
    }
    let read: BTreeSet<usize> = saves
        .iter()
        .flat_map(|save| trail(a, setup, save))
        .collect();
    let lanes = saves
        .iter_mut()
        .map(|save| interpret::run_blocks(a, setup, save, BUDGET))
        .collect();
    (0, lanes, read.len())
}

/// Walks on both sides and holds answers and saves against each other.
fn check(tally: &mut Tally, random: &mut Random, sheet: &Sheet, script: &Script, setup: u32) {
    let many = random.pick(&[0, 1, 2, 3, 5, 17, 63, 64, 65, 66]);
    let fine = saves::save(random, sheet);
    let mut ours: Vec<Save> = (0..many).map(|_| saves::save(random, sheet)).collect();
    if many > 0 && random.below(6) == 0 {
        let place = random.below(many);
        saves::break_save(random, &mut ours[place]);
    }
    let mut theirs = ours.clone();
    let answer = match script.run_all(&convert::sheet(sheet), setup, &mut ours) {
        Ok(walk) => {
            let lane = |ran: &locustkeno::Ran| {
                (
                    ran.refusal.map_or(0, |refused| refused.number()),
                    ran.entered,
                )
            };
            (0, walk.runs.iter().map(lane).collect(), walk.read as usize)
        }
        Err(refused) => (refused.number(), vec![], 0),
    };
    tally.count("walk", answer.0);
    for (refusal, _) in &answer.1 {
        tally.count("lane", *refusal);
    }
    let other = by_runs(sheet, script.arrays(), setup, &mut theirs, &fine);
    let case = || {
        format!(
            "setup {setup}, {many} saves, sheet {sheet:?}, image {:02X?}",
            script.write()
        )
    };
    tally.same("walk", &answer, &other, case);
    tally.same("saves after a walk", &ours, &theirs, case);
}

/// Random scripts, compiled ones and ones with a word changed.
pub fn random(tally: &mut Tally, random: &mut Random, count: usize) {
    for index in 0..count {
        let input = parse_cases::whole(random, index % 8);
        let Ok(mut script) = Script::read(&image::write(&input.script)) else {
            continue;
        };
        if random.below(4) == 0 {
            let mut arrays = script.arrays().clone();
            runs::change(random, &mut arrays);
            script = Script::from_arrays(arrays);
        }
        let half = input.script.blocks.len() as u32 / 2;
        let setup = random.pick(&[input.setup, input.setup, half, half + half]);
        check(tally, random, &input.sheet, &script, setup);
    }
}
