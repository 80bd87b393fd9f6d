//! `export`: the shop as lines of text.

use crate::args::{Args, Command, Opt, Takes};
use crate::files;
use crate::named;
use crate::pressing::{NAMES, Pressing, names};
use crate::said::{Answer, Failure, Said};
use crate::saves::SAVE;
use crate::table::grouped;

/// Where to put what would be printed.
pub const OUT: Opt = Opt {
    name: "--out",
    takes: Takes::One,
    value: "OUT",
    about: "writes to a file instead, whole or not at all",
};

pub const COMMAND: Command = Command {
    name: "export",
    usage: "FILE [--names NAMES] [--out OUT]",
    brief: "Prints the shop as text that `import` reads",
    about: "A line for each slot: slot, item or -, limit, requirements. By numbers it is what the\n\
        program `slots` prints; with a names file, names stand where there are any.",
    options: &[&NAMES, &OUT],
    words: 1..=1,
    run,
};

/// The files that a command reads which prints one: its words, its names and its saves.
fn read<'a>(args: &'a Args) -> impl Iterator<Item = &'a str> {
    let saves = args.all(SAVE.name).filter_map(|save| save.split_once('='));
    let saves = saves.map(|(_, file)| file);
    let words = args.words.iter().copied();
    words.chain(args.all(NAMES.name)).chain(saves)
}

/// Says the text, or writes it to the file that was asked for.
pub fn put(args: &Args, text: String) -> Result<String, Failure> {
    let Some(out) = args.one(OUT.name) else {
        return Ok(text);
    };
    files::apart(out, read(args))?;
    files::write_whole(out, text.as_bytes())?;
    Ok(format!("{out}: {} bytes\n", grouped(text.len())))
}

fn run(args: &Args) -> Answer {
    let names = names(args)?;
    let pressing = Pressing::read(args.words[0])?;
    let text = if args.has(NAMES.name) {
        named::write(&pressing.shop, &names)
    } else {
        pressing.shop.to_string()
    };
    Ok(Said::done(put(args, text)?))
}
