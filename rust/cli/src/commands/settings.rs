//! `settings`: in how many settings each slot is listed.

use crate::args::{Args, Command};
use crate::pressing::{NAMES, Pressing, names};
use crate::said::{Answer, Said};
use crate::table::{Side, Table, grouped};
use crate::words;
use locustkeno::{Refused, Settings, Slot};

pub const COMMAND: Command = Command {
    name: "settings",
    usage: "FILE [--names NAMES]",
    brief: "Prints in how many settings each slot is listed",
    about: "A setting answers with yes or no each item, attachment and flag that decides about the slot.",
    options: &[&NAMES],
    words: 1..=1,
    run,
};

/// What a designer looks for.
fn remark(slot: &Slot, settings: Settings) -> &'static str {
    match (settings.listed, settings.hidden) {
        _ if slot.item.is_none() => "empty",
        (0, _) => "never",
        (_, 0) => "always",
        _ => "",
    }
}

fn run(args: &Args) -> Answer {
    let names = names(args)?;
    let pressing = Pressing::read(args.words[0])?;
    let mut table = Table::new(&[
        ("slot", Side::Right),
        ("item", Side::Left),
        ("listed", Side::Right),
        ("settings", Side::Right),
        ("", Side::Left),
    ]);
    for (i, slot) in pressing.shop.slots().iter().enumerate() {
        let settings: Result<Settings, Refused> = slot.settings(&pressing.stage.sheet);
        let settings = settings.map_err(|refused| pressing.refused(refused))?;
        table.push([
            i.to_string(),
            words::item(slot.item, &names),
            grouped(settings.listed as usize),
            grouped(settings.all() as usize),
            remark(slot, settings).into(),
        ]);
    }
    Ok(Said::done(table.text()))
}
