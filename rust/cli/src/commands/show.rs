//! `show`: the slots as a table, and how full the script is.

use crate::args::{Args, Command};
use crate::names::Names;
use crate::pressing::{NAMES, Pressing, names};
use crate::room;
use crate::said::{Answer, Said};
use crate::table::{Side, Table};
use crate::words;
use locustkeno::Shop;

pub const COMMAND: Command = Command {
    name: "show",
    usage: "FILE [--names NAMES]",
    brief: "Prints the slots as a table, and how full the script is",
    about: "A press is a compile of this shop; `reclaim` takes back the blocks of former ones.",
    options: &[&NAMES],
    words: 1..=1,
    run,
};

/// The slots as a table of text.
fn table(shop: &Shop, names: &Names) -> String {
    let mut table = Table::new(&[
        ("slot", Side::Right),
        ("item", Side::Left),
        ("limit", Side::Right),
        ("requirements", Side::Left),
    ]);
    for (i, slot) in shop.slots().iter().enumerate() {
        table.push([
            i.to_string(),
            words::item(slot.item, names),
            slot.limit.to_string(),
            words::requirements(slot, names),
        ]);
    }
    table.text()
}

fn run(args: &Args) -> Answer {
    let names = names(args)?;
    let pressing = Pressing::read(args.words[0])?;
    let room = room::of(&pressing).map_err(|refused| pressing.refused(refused))?;
    let setup = pressing.stage.setup;
    let table = table(&pressing.shop, &names);
    Ok(Said::done(format!(
        "{table}\nsetup block {setup}\n\n{room}"
    )))
}
