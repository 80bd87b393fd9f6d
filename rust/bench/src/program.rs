//! Times of the program `slots`, with the start of its process, beside a program that does nothing.

use crate::cases::Case;
use crate::clock::{row, time};
use crate::worst;
use oracle::slots::{self, Input};
use std::io::Write;
use std::path::{Path, PathBuf};
use std::process::{Command, Stdio};

/// Where `rt run` in `crates/slots` puts the program.
fn program() -> PathBuf {
    Path::new(env!("CARGO_MANIFEST_DIR")).join("../../crates/slots/out/slots")
}

/// Runs a program on an input, its output unread.
fn run(program: &Path, input: &[u8]) {
    let mut child = Command::new(program)
        .stdin(Stdio::piped())
        .stdout(Stdio::null())
        .spawn()
        .expect("the program is there: `rt run` in `crates/slots` makes it");
    let mut pipe = child.stdin.take().expect("it was piped");
    // A program that reads nothing may be gone before all is written.
    let _ = pipe.write_all(input);
    drop(pipe);
    child.wait().expect("it was started");
}

fn timed(name: &str, input: &[u8]) {
    let slots = program();
    let ours = time(5, || (), |()| run(&slots, input));
    let nothing = time(5, || (), |()| run(Path::new("/bin/true"), input));
    row("slots", name, &[("the program", ours), ("true", nothing)]);
}

/// The case as an input of the program.
pub fn case(case: &Case) {
    let input = slots::write(&Input {
        sheet: case.sheet.clone(),
        setup: 0,
        script: case.plain.clone(),
    });
    if input.len() <= slots::INPUT {
        timed(case.name, &input);
    }
}

/// The slowest inputs that were found, and one of no use at all.
pub fn worst() {
    for hiding in [500, 1_000, 1_500, 2_000, 2_500, 3_000] {
        timed(&format!("{hiding} hide"), &worst::chain_bytes(hiding));
    }
    for hiding in [500, 1_000, 1_500, 2_000] {
        timed(&format!("{hiding} beside"), &worst::beside_bytes(hiding));
    }
    timed("65,537 bytes", &[0; slots::INPUT + 1]);
}
