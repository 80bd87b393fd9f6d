//! `run`: the script run under a save.

use super::preview;
use crate::args::{Args, Command, Opt, Takes};
use crate::pressing::{NAMES, names, stage};
use crate::said::{Answer, Failure, Said};
use crate::saves::{self, SAVE};
use locustkeno::NUM_SLOTS;

const BUDGET: Opt = Opt {
    name: "--budget",
    takes: Takes::One,
    value: "N",
    about: "how many blocks may be entered; 4096 if nothing is said, 82 is enough for a compiled shop",
};

/// As the walk of many saves has it.
const ENTERED: u32 = 4_096;

pub const COMMAND: Command = Command {
    name: "run",
    usage: "FILE [SETTING..] [--save SAVE] [--names NAMES] [--budget N]",
    brief: "Runs the script from its setup block under a save",
    about: "It prints what the run left for each slot and how many blocks it entered. Settings are those of `preview`.\n\
        A slot that the run does not write is hidden. Where the run is refused, what it left is printed all the same.",
    options: &[&SAVE, &NAMES, &BUDGET],
    words: 1..=usize::MAX,
    run,
};

fn budget(args: &Args) -> Result<u32, Failure> {
    let given = args.one(BUDGET.name).map(str::parse);
    given
        .unwrap_or(Ok(ENTERED))
        .map_err(|_| COMMAND.misused("the budget is no number"))
}

fn run(args: &Args) -> Answer {
    let (names, budget) = (names(args)?, budget(args)?);
    let stage = stage(args.words[0])?;
    let mut save = saves::of_args(args, &args.words[1..], &stage.sheet, &names)?;
    let ran = stage
        .script
        .run(&stage.sheet, stage.setup, &mut save, budget);
    let table = preview::pairs((0..NUM_SLOTS).map(|slot| save.pair(slot)), &names);
    let variable0 = save.variables[0];
    let mut said = Said::done(format!(
        "{table}variable 0 ends as {variable0}; {} blocks entered\n",
        ran.entered
    ));
    said.failure = ran.refusal.map(|refused| saves::refused(args, refused));
    Ok(said)
}
