//! `bill`: what a basket costs after a run.

use crate::args::{Args, Command, Opt, Takes};
use crate::files;
use crate::names::Names;
use crate::pressing::{NAMES, names, stage};
use crate::said::{Answer, Failure, Said};
use crate::saves::{self, SAVE};
use crate::table::{Side, Table};
use crate::tariffs;
use crate::words;
use locustkeno::{Basket, NUM_SLOTS, Refusal, Refused, Sheet, Tariff};
use std::mem;

/// The prices.
pub const TARIFF: Opt = Opt {
    name: "--tariff",
    takes: Takes::One,
    value: "TARIFF",
    about: "a file of prices: `price 7 250`, `others 10`, `discount 100`, one a line",
};

const TAKE: Opt = Opt {
    name: "--take",
    takes: Takes::Each,
    value: "SLOT=N",
    about: "so many from a slot; without any, all that the run left",
};

pub const COMMAND: Command = Command {
    name: "bill",
    usage: "FILE --tariff TARIFF [SETTING..] [--take SLOT=N].. [--save SAVE] [--names NAMES]",
    brief: "Runs the script under a save and prints the bill of a basket, by item",
    about: "Settings are those of `preview`.",
    options: &[&TARIFF, &TAKE, &SAVE, &NAMES],
    words: 1..=usize::MAX,
    run,
};

/// The tariff that a command was given.
pub fn tariff(args: &Args, sheet: &Sheet, names: &Names) -> Result<Tariff, Failure> {
    let file = args.due(TARIFF.name)?;
    let text = files::read_text(file)?;
    tariffs::read(&text, sheet, names).map_err(|bad| Failure::at(file, &bad))
}

/// A refusal, with the file or the option that it is about.
pub fn refused(args: &Args, refused: Refused) -> Failure {
    match refused.refusal() {
        Refusal::BadTariff => Failure::of(args.one(TARIFF.name).unwrap_or_default(), refused),
        Refusal::BadBasket if args.has(TAKE.name) => Failure::of(TAKE.name, refused),
        _ => saves::refused(args, refused),
    }
}

/// The basket that was asked for, if one was; of a slot once.
fn basket(args: &Args) -> Result<Option<Basket>, Failure> {
    let mut basket = None;
    let mut taken = [false; NUM_SLOTS];
    for take in args.all(TAKE.name) {
        let parts = take.split_once('=').and_then(|(slot, number)| {
            let slot: usize = slot.parse().ok()?;
            Some((slot, number.parse().ok()?))
        });
        let parts = parts.filter(|(slot, _)| *slot < NUM_SLOTS);
        let (slot, number) =
            parts.ok_or_else(|| Failure::of(take, "is no slot and number, as 0=2 is"))?;
        if mem::replace(&mut taken[slot], true) {
            return Err(Failure::of(
                take,
                format!("slot {slot} was taken of before"),
            ));
        }
        basket = Some(basket.unwrap_or(Basket::empty()).with(slot, number));
    }
    Ok(basket)
}

fn run(args: &Args) -> Answer {
    let (names, basket) = (names(args)?, basket(args)?);
    let stage = stage(args.words[0])?;
    let tariff = tariff(args, &stage.sheet, &names)?;
    let mut save = saves::of_args(args, &args.words[1..], &stage.sheet, &names)?;
    // As many blocks as a script may have: more than a compiled shop enters.
    let ran = stage
        .script
        .run(&stage.sheet, stage.setup, &mut save, 4_096);
    if let Some(refused) = ran.refusal {
        return Err(self::refused(args, refused));
    }
    let basket = basket.unwrap_or_else(|| Basket::counts(&save));
    let bill = save.bill(&stage.sheet, &tariff, &basket);
    let bill = bill.map_err(|refused| self::refused(args, refused))?;
    let mut table = Table::new(&[
        ("item", Side::Left),
        ("slot", Side::Right),
        ("number", Side::Right),
        ("coins", Side::Right),
    ]);
    for line in bill.lines {
        let number = basket.0[usize::from(line.slot)].to_string();
        let item = words::left(line.item, &names);
        table.push([item, line.slot.to_string(), number, line.coins.to_string()]);
    }
    Ok(Said::done(format!(
        "{}total {}\n",
        table.text(),
        bill.total
    )))
}
