//! The bytes of the recorded files.
//!
//! Every number is document 01's: groups of seven bits, low group first, the high bit on all but
//! the last group. A signed number is document 01's signed number. A run of bytes is its length, a
//! number, and then the bytes.
//!
//! A file of parse cases:
//! - the number of cases, and for each case
//! - a run of bytes: the standard input of `slots`;
//! - a run of bytes: what `slots` prints for it, newlines included.
//!
//! A file of compile cases:
//! - the number of cases, and for each case
//! - a run of bytes: an input of `slots` with the script before the list, its setup number 0;
//! - the number of compiles in the list, and for each compile
//!   - the setup number,
//!   - the number of slots given, and for each its item + 1 (0 for none), its limit (signed), the
//!     number of entries, and for each entry its kind (0 to 5 in sorting order) and its number
//!     (signed),
//!   - the answer: 0 accepted, else the refusal's number;
//! - a run of bytes: the image of the script after the list.
//!
//! The file of the program `replay` is a file of parse cases with one of compile cases behind it.
//!
//! The counts of the script start as what the image holds and never fall within a list.

use crate::compile_cases::{Case, Step};
use oracle::image::{self, put_number, put_signed};
use oracle::plain::Slot;
use oracle::slots::{self, Input};

fn put_count(out: &mut Vec<u8>, count: usize) {
    put_number(out, u32::try_from(count).expect("counts fit 32 bits"));
}

fn put_run(out: &mut Vec<u8>, bytes: &[u8]) {
    put_count(out, bytes.len());
    out.extend(bytes);
}

/// The bytes of a file of parse cases: inputs and what is printed for them.
pub fn parse_file(cases: &[(Vec<u8>, String)]) -> Vec<u8> {
    let mut out = Vec::new();
    put_count(&mut out, cases.len());
    for (input, text) in cases {
        put_run(&mut out, input);
        put_run(&mut out, text.as_bytes());
    }
    out
}

/// The bytes of a file of compile cases.
pub fn compile_file(cases: &[Case]) -> Vec<u8> {
    let mut out = Vec::new();
    put_count(&mut out, cases.len());
    for case in cases {
        put_case(&mut out, case);
    }
    out
}

/// How many bytes a list of compiles takes in a file.
pub fn length(case: &Case) -> usize {
    let mut out = Vec::new();
    put_case(&mut out, case);
    out.len()
}

fn put_case(out: &mut Vec<u8>, case: &Case) {
    let before = slots::write(&Input {
        sheet: case.sheet.clone(),
        setup: 0,
        script: case.before.clone(),
    });
    put_run(out, &before);
    put_count(out, case.steps.len());
    for step in &case.steps {
        put_step(out, step);
    }
    put_run(out, &image::write(&case.after));
}

fn put_step(out: &mut Vec<u8>, step: &Step) {
    put_number(out, step.setup);
    put_count(out, step.shop.len());
    for slot in &step.shop {
        put_slot(out, slot);
    }
    put_number(out, step.answer.into());
}

fn put_slot(out: &mut Vec<u8>, slot: &Slot) {
    put_number(out, slot.item.map_or(0, |i| u32::from(i) + 1));
    put_signed(out, slot.limit.into());
    put_count(out, slot.requirements.len());
    for requirement in &slot.requirements {
        let (kind, number) = requirement.parts();
        put_number(out, kind.into());
        put_signed(out, number);
    }
}
