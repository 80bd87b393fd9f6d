//! The program `locustkeno`: what designer, approver and build engineer do with a stage's shop in a week, as commands.
//!
//! All that decides anything is asked of the safe crate, that is, of the proved library; here files are read and written, words are
//! looked up and answers are laid out.

#![forbid(unsafe_code)]

mod args;
mod commands;
mod files;
mod html;
mod lines;
mod named;
mod names;
mod page;
mod pressing;
mod room;
mod said;
mod saves;
mod sha256;
mod table;
mod tariffs;
mod words;

use said::{Failure, Said, Status};
use std::env;
use std::ffi::OsString;
use std::io::{self, ErrorKind, Write};
use std::process::ExitCode;

/// Prints what a command said. A reader that went away, as `head` does, is no error.
fn print(said: &Said) -> Result<Status, Failure> {
    let mut out = io::stdout().lock();
    let printed = out
        .write_all(said.text.as_bytes())
        .and_then(|()| out.flush());
    match printed {
        Err(error) if error.kind() != ErrorKind::BrokenPipe => {
            Err(Failure::of("standard output", error))
        }
        _ => Ok(said.status),
    }
}

fn run() -> Result<Status, Failure> {
    let words: Result<Vec<String>, OsString> =
        env::args_os().skip(1).map(OsString::into_string).collect();
    let words = words.map_err(|word| Failure::of(&word.to_string_lossy(), "is not UTF-8"))?;
    let said = commands::run(&words)?;
    let status = print(&said)?;
    if let Some(failure) = said.failure {
        return Err(failure);
    }
    Ok(status)
}

fn main() -> ExitCode {
    match run() {
        Ok(Status::Done) => ExitCode::SUCCESS,
        Ok(Status::No) => ExitCode::from(1),
        Err(failure) => {
            // Where standard error is gone too, the status is all that is left to say.
            let _ = writeln!(io::stderr(), "locustkeno: {failure}");
            ExitCode::from(2)
        }
    }
}
