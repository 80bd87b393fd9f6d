//! Writes recorded answers of the original to files.
//!
//! `record SEED PARSE COMPILE FOLDER [limits]` writes `parse.bin` with PARSE cases and
//! `compile.bin` with COMPILE lists into FOLDER, the same ones for the same seed; with `limits`
//! also `limits-parse.bin` and `limits-compile.bin`. The module `format` says what is in them.
//!
//! `record replay SEED PARSE COMPILE FILE` writes the input of the program `replay`: PARSE small cases
//! and COMPILE small lists, and behind each some at a limit.

use oracle::{calls, slots};
use record::compile_cases::{self, Case};
use record::random::Random;
use record::{format, limits, parse_cases, small};
use std::collections::BTreeMap;
use std::error::Error;
use std::path::Path;
use std::{env, fs};

type ParseCase = (Vec<u8>, String);

fn main() -> Result<(), Box<dyn Error>> {
    let arguments: Vec<String> = env::args().skip(1).collect();
    match &arguments[..] {
        [word, seed, parses, compiles, file] if word == "replay" => record_replay(
            &mut Random::new(seed.parse()?),
            parses.parse()?,
            compiles.parse()?,
            Path::new(file),
        ),
        [seed, parses, compiles, folder, rest @ ..] if rest.is_empty() || rest == ["limits"] => {
            record_files(
                &mut Random::new(seed.parse()?),
                parses.parse()?,
                compiles.parse()?,
                Path::new(folder),
                !rest.is_empty(),
            )
        }
        _ => Err("usage: record SEED PARSE COMPILE FOLDER [limits], or record replay SEED PARSE COMPILE FILE".into()),
    }
}

/// Writes the input of the program `replay`.
fn record_replay(
    random: &mut Random,
    parses: usize,
    compiles: usize,
    file: &Path,
) -> Result<(), Box<dyn Error>> {
    let inputs = small::parse_inputs(random, parses);
    let cases: Vec<ParseCase> = inputs.into_iter().map(answered).collect();
    let lists = small::compile_cases(random, compiles);
    let mut bytes = said("parse", &cases);
    bytes.extend(said_lists("compile", &lists));
    println!("{} bytes", bytes.len());
    Ok(fs::write(file, bytes)?)
}

fn record_files(
    random: &mut Random,
    parses: usize,
    compiles: usize,
    folder: &Path,
    with_limits: bool,
) -> Result<(), Box<dyn Error>> {
    let inputs = (0..parses).map(|i| parse_cases::input(random, i)).collect();
    let lists: Vec<Case> = (0..compiles).map(|_| compile_cases::case(random)).collect();
    fs::create_dir_all(folder)?;
    record(folder, "", inputs, &lists)?;
    if with_limits {
        record(
            folder,
            "limits-",
            limits::parse_inputs(),
            &limits::compile_cases(),
        )?;
    }
    Ok(())
}

/// Writes two files and says what is in them.
fn record(
    folder: &Path,
    prefix: &str,
    inputs: Vec<Vec<u8>>,
    lists: &[Case],
) -> Result<(), Box<dyn Error>> {
    let cases: Vec<ParseCase> = inputs.into_iter().map(answered).collect();
    let name = format!("{prefix}parse.bin");
    fs::write(folder.join(&name), said(&name, &cases))?;
    let name = format!("{prefix}compile.bin");
    fs::write(folder.join(&name), said_lists(&name, lists))?;
    Ok(())
}

/// The bytes of parse cases; says what is in them.
fn said(name: &str, cases: &[ParseCase]) -> Vec<u8> {
    let bytes = format::parse_file(cases);
    println!(
        "{name}: {} cases, {} bytes, {:?}",
        cases.len(),
        bytes.len(),
        answers(cases)
    );
    let (too_many, cut) = differing(cases);
    println!("  the original alone reads {too_many} of the 11s and {cut} others with cut ids");
    bytes
}

/// The bytes of lists of compiles; says what is in them.
fn said_lists(name: &str, lists: &[Case]) -> Vec<u8> {
    let bytes = format::compile_file(lists);
    let mut steps = BTreeMap::new();
    for step in lists.iter().flat_map(|case| &case.steps) {
        *steps.entry(step.answer).or_insert(0) += 1;
    }
    println!(
        "{name}: {} lists, {} bytes, {steps:?}",
        lists.len(),
        bytes.len()
    );
    bytes
}

fn answered(input: Vec<u8>) -> ParseCase {
    let text = slots::print(&slots::answer(&input));
    (input, text)
}

/// How many cases have each answer; "read" is the one that is no refusal.
fn answers(cases: &[ParseCase]) -> BTreeMap<String, usize> {
    let mut counts = BTreeMap::new();
    for (_, text) in cases {
        let refused = text.starts_with("refused");
        let answer = if refused { text.trim_end() } else { "read" };
        *counts.entry(answer.to_string()).or_insert(0) += 1;
    }
    counts
}

/// How many of the inputs that can be read have another answer without document 01's rules: past
/// 14 requirements, or otherwise, which leaves ids cut to 16 bits. A panic stands for a refusal.
fn differing(cases: &[ParseCase]) -> (usize, usize) {
    let (mut too_many, mut cut) = (0, 0);
    for (input, text) in cases {
        let Ok(input) = slots::read(input) else {
            continue;
        };
        let differs = match calls::parse(&input.sheet, &input.script, input.setup as usize) {
            Ok(alone) => slots::print(&Ok(alone)) != *text,
            Err(_) => !text.starts_with("refused"),
        };
        let place = if text == "refused 11\n" {
            &mut too_many
        } else {
            &mut cut
        };
        *place += usize::from(differs);
    }
    (too_many, cut)
}
