//! `import`: a shop's text compiled into a stage.

use crate::args::{Args, Command, Opt, Takes};
use crate::files;
use crate::named;
use crate::names::Names;
use crate::pressing::{self, NAMES, forbids, names, stage};
use crate::room;
use crate::said::{Answer, Failure, Said, Status};
use crate::table::grouped;
use crate::words;
use locustkeno::{Loader, Refused, Shop, Slot, Stage};

const LOADER: Opt = Opt {
    name: "--loader",
    takes: Takes::One,
    value: "disc|demo",
    about: "what is to load the result; the disc if nothing is said",
};

const FORCE: Opt = Opt {
    name: "--force",
    takes: Takes::Nothing,
    value: "",
    about: "writes also where what is printed will not be what runs",
};

pub const COMMAND: Command = Command {
    name: "import",
    usage: "FILE SHOP OUT [--loader disc|demo] [--names NAMES] [--force]",
    brief: "Compiles a shop's text at the setup block of FILE, and writes the stage to OUT",
    about: "It says what was found, coerced or lost, and writes only what is read back as it runs.\n\
        SHOP may have names, blank lines and comments behind `#`. OUT may be FILE.",
    options: &[&LOADER, &NAMES, &FORCE],
    words: 3..=3,
    run,
};

fn loader(args: &Args) -> Result<Loader, Failure> {
    match args.one(LOADER.name) {
        None | Some("disc") => Ok(Loader::Disc),
        Some("demo") => Ok(Loader::Demo),
        Some(other) => Err(COMMAND.misused(&format!("there is no loader `{other}`"))),
    }
}

/// The stage with the shop compiled at its setup block, and the shop that is read there then.
fn pressed(stage: &Stage, loader: Loader, shop: &Shop) -> Result<(Stage, Shop), Refused> {
    let mut stage = stage.clone();
    stage
        .script
        .compile(&stage.sheet, loader, stage.setup, shop)?;
    let read = stage.script.parse(&stage.sheet, stage.setup)?;
    Ok((stage, read))
}

/// Whether a slot is read back otherwise than it was given. Of the limit of a slot with an item a finding tells already.
fn is_other(given: &Slot, read: &Slot) -> bool {
    let mut given = given.clone();
    if given.item.is_some() {
        given.limit = read.limit;
    }
    !words::changes(&given, read, &Names::default()).is_empty()
}

/// A line for each slot that is read back otherwise than it was given.
fn read_back(given: &Shop, read: &Shop, names: &Names) -> String {
    let (given, read) = (given.slots(), read.slots());
    let pairs = given.iter().zip(read.iter()).enumerate();
    let other = pairs.filter(|(_, (given, read))| is_other(given, read));
    other
        .map(|(i, (given, read))| {
            let (given, read) = (words::slot(given, names), words::slot(read, names));
            format!("slot {i}: given {given}; reads back as {read}\n")
        })
        .collect()
}

fn run(args: &Args) -> Answer {
    let [file, text, out] = args.words[..] else {
        return Err(COMMAND.misused("three files are due"));
    };
    files::apart(out, args.one(NAMES.name).into_iter().chain([text]))?;
    let (names, loader, old) = (names(args)?, loader(args)?, stage(file)?);
    let given = named::read(&files::read_text(text)?, &names);
    let given = given.map_err(|bad| Failure::at(text, &bad))?;
    let findings = given
        .check(&old.sheet)
        .map_err(|refused| Failure::of(text, refused))?;
    let mut said: String = findings
        .iter()
        .map(|finding| words::finding(finding, &names) + "\n")
        .collect();
    let refused = |refused: Refused| Failure::of(file, refused);
    let (mut new, mut read) = pressed(&old, loader, &given).map_err(refused)?;
    said += &read_back(&given, &read, &names);
    if !findings.iter().any(forbids) {
        // What is read back means the same, and its blocks are those that `check` looks for.
        (new, read) = pressed(&old, loader, &read).map_err(refused)?;
    } else if !args.has(FORCE.name) {
        said += &format!(
            "{out} was not written: mend {text}, or say {}\n",
            FORCE.name
        );
        return Ok(Said::new(said, Status::No));
    }
    let bytes = grouped(pressing::write(out, &new)?);
    let room = room::left(&new, &read).map_err(refused)?;
    let setup = new.setup;
    said += &format!("{out}: pressed at block {setup}, {bytes} bytes; {room}\n");
    Ok(Said::done(said))
}
