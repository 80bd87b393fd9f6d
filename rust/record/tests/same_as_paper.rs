//! Holds the original, under document 01's refusals, against document 01's own words.

mod paper;

use oracle::rules::{self, Counts};
use oracle::slots;
use record::random::Random;
use record::{compile_cases, limits, parse_cases};

fn check_parse(input: &[u8]) {
    let Ok(read) = slots::read(input) else { return };
    let setup = read.setup as usize;
    let expected = rules::check_setup(&read.script, setup)
        .and_then(|()| paper::parser::parse(&read.sheet, &read.script, setup));
    let answer = slots::answer(input);
    assert_eq!(
        slots::print(&answer),
        slots::print(&expected),
        "input {input:02X?}"
    );
}

#[test]
fn parsing() {
    let mut random = Random::new(7);
    for index in 0..20_000 {
        check_parse(&parse_cases::input(&mut random, index));
    }
    for input in limits::parse_inputs() {
        check_parse(&input);
    }
}

/// Goes through a list by document 01's compiler. Its answers are taken from the case, but 9 is
/// held against the counts, and 17 is for the blocks that the list appended.
fn check_compile(case: &compile_cases::Case) {
    let mut script = case.before.clone();
    let mut kept = Counts::of(&script.blocks);
    for step in &case.steps {
        if matches!(step.answer, 6 | 7) {
            continue;
        }
        let appended = step.setup as usize >= case.before.blocks.len();
        assert_eq!(step.answer == 17, appended);
        if matches!(step.answer, 17 | 8) {
            continue;
        }
        let after = paper::compiler::compile(&case.sheet, &script, step.setup as usize, &step.shop);
        let added = Counts::of(&after.blocks[script.blocks.len()..]);
        let counts = [
            kept.blocks + added.blocks,
            kept.commands + added.commands,
            kept.nodes + added.nodes,
        ];
        let fits = counts[0] <= 4_096 && counts[1] <= 16_384 && counts[2] <= 32_768;
        assert_eq!(step.answer, if fits { 0 } else { 9 });
        if fits {
            script = after;
            kept = Counts {
                blocks: counts[0],
                commands: counts[1],
                nodes: counts[2],
            };
        }
    }
    assert_eq!(script, case.after);
}

#[test]
fn compiling() {
    let mut random = Random::new(11);
    for _ in 0..5_000 {
        check_compile(&compile_cases::case(&mut random));
    }
    for case in limits::compile_cases() {
        check_compile(&case);
    }
}
