//! The commands, and which one is asked for.

mod approve;
mod bill;
mod check;
mod diff;
mod export;
mod import;
mod preview;
mod reclaim;
mod run;
mod settings;
mod shopper;
mod show;
mod sweep;

use crate::args::{Args, Command};
use crate::said::{Answer, Failure, Said};

/// In the order of the week.
const COMMANDS: [&Command; 13] = [
    &show::COMMAND,
    &export::COMMAND,
    &import::COMMAND,
    &diff::COMMAND,
    &check::COMMAND,
    &preview::COMMAND,
    &run::COMMAND,
    &settings::COMMAND,
    &sweep::COMMAND,
    &bill::COMMAND,
    &shopper::COMMAND,
    &reclaim::COMMAND,
    &approve::COMMAND,
];

/// The tool's name and version.
pub fn version() -> String {
    format!("locustkeno {}", env!("CARGO_PKG_VERSION"))
}

fn help() -> String {
    let mut text = String::from(
        "usage: locustkeno COMMAND ..\n\nThe shop of a stage file, from the command line.\n\n",
    );
    for command in COMMANDS {
        text += &format!("  {:<9} {}\n", command.name, command.brief);
    }
    text + "\n`locustkeno COMMAND --help` says more of a command, `locustkeno --version` the version.\n\
        A FILE is a stage: sheet, setup number and image; `-` is standard input.\n\
        status: 0 done, 1 said no or differs, 2 refused or bad usage\n"
}

fn named(name: &str) -> Result<&'static Command, Failure> {
    let command = COMMANDS.into_iter().find(|command| command.name == name);
    command.ok_or_else(|| Failure::of(name, "is no command; `locustkeno --help` lists them"))
}

/// Whether the help of a command is asked for.
fn wants_help(words: &[String]) -> bool {
    let mut options = words.iter().take_while(|word| *word != "--");
    options.any(|word| word == "--help" || word == "-h")
}

/// Runs what the arguments ask for.
pub fn run(words: &[String]) -> Answer {
    let words_of: Vec<&str> = words.iter().map(String::as_str).collect();
    match words_of[..] {
        [] => Err(Failure::new("no command; `locustkeno --help` lists them")),
        ["--help" | "-h" | "help"] => Ok(Said::done(help())),
        ["--version" | "-V"] => Ok(Said::done(version() + "\n")),
        ["help", name] => Ok(Said::done(named(name)?.help())),
        [name, ..] => {
            let (command, rest) = (named(name)?, &words[1..]);
            if wants_help(rest) {
                return Ok(Said::done(command.help()));
            }
            (command.run)(&Args::parse(command, rest)?)
        }
    }
}
