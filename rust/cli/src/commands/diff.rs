//! `diff`: what changed between two pressings.

use crate::args::{Args, Command};
use crate::names::Names;
use crate::pressing::{NAMES, Pressing, names, run_alike};
use crate::said::{Answer, Failure, Said, Status};
use crate::words;

pub const COMMAND: Command = Command {
    name: "diff",
    usage: "OLD NEW [--names NAMES]",
    brief: "Prints slot by slot what changed between two pressings",
    about: "Status 1 where a slot or the sheet changed, or blocks that are not the slots compiled. That other compiled blocks lead\n\
        to the same slots is said, and is no change.",
    options: &[&NAMES],
    words: 2..=2,
    run,
};

/// Said where the same slots are no proof of the same run.
const RUNS: &str = "the blocks changed and are not the slots compiled: what runs may have changed";

/// A line for each thing that changed, the sheet first; where no slot did, whether the blocks may run otherwise.
pub fn changes(old: &Pressing, new: &Pressing, names: &Names) -> Result<Vec<String>, Failure> {
    let mut told = Vec::new();
    if old.stage.sheet != new.stage.sheet {
        told.push("the sheet changed: numbers may stand for other things".to_owned());
    }
    let (was, is) = (old.shop.slots(), new.shop.slots());
    for (i, (was, is)) in was.iter().zip(is.iter()).enumerate() {
        let changed = words::changes(was, is, names);
        told.extend(changed.into_iter().map(|what| format!("slot {i}: {what}")));
    }
    if told.is_empty() && !run_alike(old, new).map_err(|refused| new.refused(refused))? {
        told.push(RUNS.into());
    }
    Ok(told)
}

fn run(args: &Args) -> Answer {
    let names = names(args)?;
    let (old, new) = (
        Pressing::read(args.words[0])?,
        Pressing::read(args.words[1])?,
    );
    let told = changes(&old, &new, &names)?;
    let mut text: String = told.iter().map(|line| format!("{line}\n")).collect();
    if told.is_empty() {
        text += if old.bytes == new.bytes {
            "no slot changed; the files are the same\n"
        } else {
            "no slot changed; the files have other blocks\n"
        };
    }
    Ok(Said::new(text, Status::no_where(!told.is_empty())))
}
