//! `check`: what is to know before a shop is signed.

use crate::args::{Args, Command};
use crate::files;
use crate::named;
use crate::names::Names;
use crate::pressing::{NAMES, Pressing, forbids, names, stage};
use crate::said::{Answer, Failure, Said, Status};
use crate::words;

pub const COMMAND: Command = Command {
    name: "check",
    usage: "FILE [SHOP] [--names NAMES]",
    brief: "Prints what is to know before the shop is signed",
    about: "With SHOP the text is checked under FILE's sheet, else the shop in FILE, and whether FILE's\n\
        script is just that shop compiled. Status 1 where what is printed may not be what runs.",
    options: &[&NAMES],
    words: 1..=2,
    run,
};

/// The findings of a text, and whether one forbids to sign.
fn of_text(file: &str, text: &str, names: &Names) -> Result<(Vec<String>, bool), Failure> {
    let stage = stage(file)?;
    let shop = named::read(&files::read_text(text)?, names);
    let shop = shop.map_err(|bad| Failure::at(text, &bad))?;
    let findings = shop.check(&stage.sheet);
    let findings = findings.map_err(|refused| Failure::of(text, refused))?;
    let lines = findings.iter().map(|one| words::finding(one, names));
    let lines = lines.collect();
    Ok((lines, findings.iter().any(forbids)))
}

fn run(args: &Args) -> Answer {
    let names = names(args)?;
    let (lines, no) = match args.words[1..] {
        [text] => of_text(args.words[0], text, &names)?,
        _ => {
            let verdict = Pressing::read(args.words[0])?.verdict()?;
            (verdict.lines(&names), verdict.says_no())
        }
    };
    let mut text: String = lines.iter().map(|line| format!("{line}\n")).collect();
    text += if no {
        "do not sign: what is printed may not be what runs\n"
    } else {
        "what is printed is what runs\n"
    };
    Ok(Said::new(text, Status::no_where(no)))
}
