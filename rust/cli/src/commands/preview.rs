//! `preview`: what the shop means for a save.

use crate::args::{Args, Command};
use crate::names::Names;
use crate::pressing::{NAMES, Pressing, names};
use crate::said::{Answer, Said};
use crate::saves::{self, SAVE};
use crate::table::{Side, Table};
use crate::words;

pub const COMMAND: Command = Command {
    name: "preview",
    usage: "FILE [SETTING..] [--save SAVE] [--names NAMES]",
    brief: "Prints what the shop means for a save",
    about: "A setting is item:7=2, atc:1=1, flag:12=1, time:2=200 or var:0=5, by number or name; all else is 0.",
    options: &[&SAVE, &NAMES],
    words: 1..=usize::MAX,
    run,
};

/// The item and count of each slot as a table.
pub fn pairs(pairs: impl Iterator<Item = (i32, i32)>, names: &Names) -> String {
    let mut table = Table::new(&[
        ("slot", Side::Right),
        ("item", Side::Left),
        ("count", Side::Right),
    ]);
    for (slot, (item, count)) in pairs.enumerate() {
        table.push([
            slot.to_string(),
            words::left(item, names),
            count.to_string(),
        ]);
    }
    table.text()
}

fn run(args: &Args) -> Answer {
    let names = names(args)?;
    let pressing = Pressing::read(args.words[0])?;
    let sheet = &pressing.stage.sheet;
    let save = saves::of_args(args, &args.words[1..], sheet, &names)?;
    let seen = pressing.shop.preview(sheet, &save);
    let seen = seen.map_err(|refused| saves::refused(args, refused))?;
    let table = pairs(seen.pairs.into_iter(), &names);
    Ok(Said::done(format!(
        "{table}variable 0 ends as {}\n",
        seen.variable0
    )))
}
