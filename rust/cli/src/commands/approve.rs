//! `approve`: one page to print and sign.

use super::diff;
use super::export::{OUT, put};
use crate::args::{Args, Command, Opt, Takes};
use crate::names::Names;
use crate::page::{Page, Previewed};
use crate::pressing::{NAMES, Pressing, names};
use crate::said::{Answer, Failure, Said, Status};
use crate::saves::{self, SAVE};
use locustkeno::Refusal;

const SAVES: Opt = Opt {
    name: SAVE.name,
    takes: Takes::Each,
    value: "NAME=SAVE",
    about: "a preview under the settings of a file, by this name; may be given again",
};

pub const COMMAND: Command = Command {
    name: "approve",
    usage: "FILE [OLD] [--names NAMES] [--save NAME=SAVE].. [--out OUT]",
    brief: "Prints a page of HTML to print and sign",
    about: "It has the slots, what changed since OLD, previews, findings, the SHA-256 of file and image, and a line for\n\
        the signature. Nothing is loaded from elsewhere. Status 1 where `check` says no.",
    options: &[&NAMES, &SAVES, &OUT],
    words: 1..=2,
    run,
};

/// The previews under the saves that were named.
fn previews(args: &Args, new: &Pressing, names: &Names) -> Result<Vec<Previewed>, Failure> {
    let mut previews: Vec<Previewed> = Vec::new();
    for given in args.all(SAVES.name) {
        let parts = given.split_once('=').filter(|(name, _)| !name.is_empty());
        let (name, file) = parts.ok_or_else(|| Failure::of(given, "is no NAME=SAVE"))?;
        if previews.iter().any(|before| before.name == name) {
            return Err(Failure::of(given, "another save has this name"));
        }
        let save = saves::one_of_file(file, &new.stage.sheet, names)?;
        let seen = new.shop.preview(&new.stage.sheet, &save);
        // A shop that no run gets through is for the page to say; all else is wrong with the save.
        match seen {
            Err(refused) if refused != Refusal::NoFlag => return Err(Failure::of(file, refused)),
            seen => previews.push(Previewed {
                name: name.to_owned(),
                settings: saves::told(&save, &new.stage.sheet, names),
                seen,
            }),
        }
    }
    Ok(previews)
}

fn run(args: &Args) -> Answer {
    let names = names(args)?;
    let new = Pressing::read(args.words[0])?;
    let old = args
        .words
        .get(1)
        .map(|old| Pressing::read(old))
        .transpose()?;
    let old = old.as_ref();
    let changed = |old| Ok((old, diff::changes(old, &new, &names)?));
    let page = Page {
        new: &new,
        old: old.map(changed).transpose()?,
        verdict: new.verdict()?,
        previews: previews(args, &new, &names)?,
        names: &names,
    };
    let text = page.text().map_err(|refused| new.refused(refused))?;
    let status = Status::no_where(page.verdict.says_no());
    Ok(Said::new(put(args, text)?, status))
}
