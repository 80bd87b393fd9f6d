//! `sweep`: many saves, 64 at a time, and which slots never show.

use crate::args::{Args, Command};
use crate::names::Names;
use crate::pressing::{NAMES, Pressing, names};
use crate::said::{Answer, Failure, Said, Status};
use crate::saves::{self, Named};
use crate::table::{Side, Table, grouped};
use crate::words;
use locustkeno::{LANES, NUM_SLOTS, Ran, Refused, Save, Shop, Stage};
use std::io::{self, Write};
use std::mem;
use std::time::{Duration, Instant};

pub const COMMAND: Command = Command {
    name: "sweep",
    usage: "FILE SAVES.. [--names NAMES]",
    brief: "Runs the script under many saves, 64 at a time, and prints which slots never show",
    about: "A file of saves has settings as those of `preview`, one or more a line; a line `save NAME` begins a further save.\n\
        Status 1 where a slot shows under no save. How far it is stands on standard error when it takes long.",
    options: &[&NAMES],
    words: 2..=usize::MAX,
    run,
};

/// What was seen of each slot, and the runs that were refused.
#[derive(Default)]
struct Seen {
    saves: usize,
    listed: [usize; NUM_SLOTS],
    on_sale: [usize; NUM_SLOTS],
    refused: Vec<(String, Refused)>,
}

impl Seen {
    fn count(&mut self, named: Named, ran: Ran) {
        self.saves += 1;
        if let Some(refused) = ran.refusal {
            self.refused.push((named.name, refused));
            return;
        }
        for slot in 0..NUM_SLOTS {
            let (item, count) = named.save.pair(slot);
            self.listed[slot] += usize::from(item >= 0);
            self.on_sale[slot] += usize::from(item >= 0 && count > 0);
        }
    }
}

/// How many blocks a run may enter, as in the walk.
const BUDGET: u32 = 4_096;

/// The runs of up to 64 saves. Where the walk is refused they are run one by one: a script that was not compiled may go round, and of
/// saves that do not fit each is then told by its own refusal.
fn walk(stage: &Stage, saves: &mut [Save]) -> Vec<Ran> {
    if let Ok(walk) = stage.script.run_all(&stage.sheet, stage.setup, saves) {
        return walk.runs;
    }
    let alone = |save: &mut Save| stage.script.run(&stage.sheet, stage.setup, save, BUDGET);
    saves.iter_mut().map(alone).collect()
}

/// How long a sweep is silent, and then between two reports.
const PATIENCE: Duration = Duration::from_millis(500);

/// A sweep on its way: saves are run when 64 of them wait.
struct Sweep<'a> {
    stage: &'a Stage,
    waiting: Vec<Named>,
    seen: Seen,
    told: Instant,
}

impl Sweep<'_> {
    fn add(&mut self, named: Named) {
        self.waiting.push(named);
        if self.waiting.len() == LANES {
            self.run();
        }
    }

    /// Runs those that wait.
    fn run(&mut self) {
        let waiting = mem::take(&mut self.waiting);
        let (names, mut saves): (Vec<String>, Vec<Save>) = waiting
            .into_iter()
            .map(|named| (named.name, named.save))
            .unzip();
        let runs = walk(self.stage, &mut saves);
        for ((name, save), ran) in names.into_iter().zip(saves).zip(runs) {
            self.seen.count(Named { name, save }, ran);
        }
    }

    /// Says now and then on standard error how far it is.
    fn tell(&mut self, file: usize, files: usize) {
        if self.told.elapsed() >= PATIENCE {
            self.told = Instant::now();
            let saves = grouped(self.seen.saves);
            // Where nobody listens the sweep goes on.
            let _ = writeln!(io::stderr(), "{saves} saves run, file {file} of {files}");
        }
    }
}

/// Runs all saves of the files.
fn sweep(files: &[&str], stage: &Stage, names: &Names) -> Result<Seen, Failure> {
    let mut sweep = Sweep {
        stage,
        waiting: Vec::new(),
        seen: Seen::default(),
        told: Instant::now(),
    };
    for (i, file) in files.iter().enumerate() {
        saves::each_of_file(file, &stage.sheet, names, |named| {
            sweep.add(named);
            sweep.tell(i + 1, files.len());
        })?;
    }
    sweep.run();
    Ok(sweep.seen)
}

/// The table of what was seen of the slots with an item, and whether one of them never shows.
fn text(seen: &Seen, shop: &Shop, names: &Names) -> (String, bool) {
    let mut table = Table::new(&[
        ("slot", Side::Right),
        ("item", Side::Left),
        ("listed", Side::Right),
        ("on sale", Side::Right),
    ]);
    let mut never = Vec::new();
    let slots = shop.slots();
    let filled = slots
        .iter()
        .enumerate()
        .filter(|(_, slot)| slot.item.is_some());
    for (i, slot) in filled {
        let (listed, on_sale) = (grouped(seen.listed[i]), grouped(seen.on_sale[i]));
        table.push([
            i.to_string(),
            words::item(slot.item, names),
            listed,
            on_sale,
        ]);
        if seen.listed[i] == 0 {
            never.push(i.to_string());
        }
    }
    let saves = if seen.saves == 1 { "save" } else { "saves" };
    let mut text = format!("{}{} {saves}\n", table.text(), grouped(seen.saves));
    if !never.is_empty() {
        text += &format!("never shown: slot {}\n", never.join(", "));
    }
    (text, !never.is_empty())
}

fn run(args: &Args) -> Answer {
    let names = names(args)?;
    let pressing = Pressing::read(args.words[0])?;
    let seen = sweep(&args.words[1..], &pressing.stage, &names)?;
    let (text, never) = text(&seen, &pressing.shop, &names);
    let mut said = Said::new(text, Status::no_where(never));
    if let Some((name, refused)) = seen.refused.first() {
        let many = grouped(seen.refused.len());
        let why = format!("refused runs: {many}, first that of {name}: {refused}");
        said.failure = Some(Failure::of(pressing.file, why));
    }
    Ok(said)
}
