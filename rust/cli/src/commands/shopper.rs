//! `shopper`: a shopper with money and wishes.

use super::bill::{self, TARIFF, tariff};
use crate::args::{Args, Command, Opt, Takes};
use crate::names::Names;
use crate::pressing::{NAMES, Pressing, names};
use crate::said::{Answer, Failure, Said};
use crate::saves::{self, SAVE};
use crate::words;
use locustkeno::{Refusal, Refused, Shopper, Slot, Step};

const MONEY: Opt = Opt {
    name: "--money",
    takes: Takes::One,
    value: "COINS",
    about: "what the shopper has to begin with",
};

const WISH: Opt = Opt {
    name: "--wish",
    takes: Takes::Numbers,
    value: "SLOT..",
    about: "the slots of which one piece each is wished, in this order",
};

pub const COMMAND: Command = Command {
    name: "shopper",
    usage: "FILE --tariff TARIFF --money COINS --wish SLOT.. [SETTING..] [--save SAVE] [--names NAMES]",
    brief: "Lets a shopper buy one wish after another",
    about: "Before each wish the shop is run; one piece is bought if there is one and the money is enough.\n\
        Settings are those of `preview`.",
    options: &[&TARIFF, &MONEY, &WISH, &SAVE, &NAMES],
    words: 1..=usize::MAX,
    run,
};

/// A number of an option; which ones are right is the library's to say where they fit.
fn number<T: std::str::FromStr>(option: &str, word: &str) -> Result<T, Failure> {
    word.parse()
        .map_err(|_| Failure::of(option, format!("`{word}` is no number that fits")))
}

fn step(step: Step, slot: &Slot, names: &Names) -> String {
    let item = words::item(slot.item, names);
    match step {
        Step::Bought(coins) => format!("bought {item} for {coins}"),
        Step::SoldOut => "sold out or hidden".into(),
        Step::TooDear => format!("{item} is too dear"),
        Step::Stopped(refused) => refused.to_string(),
    }
}

/// A refusal, with the file or the option that it is about.
fn refused(args: &Args, refused: Refused) -> Failure {
    match refused.refusal() {
        Refusal::TooManyWishes | Refusal::NoSuchWish => Failure::of(WISH.name, refused),
        Refusal::BadMoney => Failure::of(MONEY.name, refused),
        _ => bill::refused(args, refused),
    }
}

fn run(args: &Args) -> Answer {
    let names = names(args)?;
    let money = number(MONEY.name, args.due(MONEY.name)?)?;
    args.due(WISH.name)?;
    let wishes = args.all(WISH.name).map(|word| number(WISH.name, word));
    let wishes = wishes.collect::<Result<Vec<u8>, Failure>>()?;
    let pressing = Pressing::read(args.words[0])?;
    let sheet = &pressing.stage.sheet;
    let tariff = tariff(args, sheet, &names)?;
    let save = saves::of_args(args, &args.words[1..], sheet, &names)?;
    let mut shopper = Shopper { save, money };
    let steps = shopper.shop(sheet, &pressing.shop, &tariff, &wishes);
    let steps = steps.map_err(|refused| self::refused(args, refused))?;
    let slots = pressing.shop.slots();
    let mut said = Said::done(String::new());
    for (i, (made, wish)) in steps.iter().zip(&wishes).enumerate() {
        let words = step(*made, &slots[usize::from(*wish)], &names);
        said.text += &format!("{}. slot {wish}: {words}\n", i + 1);
        if let Step::Stopped(refused) = made {
            said.failure = Some(pressing.refused(*refused));
        }
    }
    said.text += &format!("money {} of {money}\n", shopper.money);
    Ok(said)
}
