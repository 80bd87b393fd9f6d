//! `reclaim`: dead blocks taken back.

use crate::args::{Args, Command, Opt, Takes};
use crate::pressing::{self, stage};
use crate::said::{Answer, Failure, Said};
use crate::table::grouped;

const ROOT: Opt = Opt {
    name: "--root",
    takes: Takes::Numbers,
    value: "N..",
    about: "further blocks to keep, with all that they lead to",
};

pub const COMMAND: Command = Command {
    name: "reclaim",
    usage: "FILE [--root N..] OUT",
    brief: "Drops the blocks that nothing reaches, and writes the stage to OUT",
    about: "The setup block is always a root. Blocks get new numbers, and those of the roots are printed. OUT may be FILE.",
    options: &[&ROOT],
    words: 2..=2,
    run,
};

/// The setup block and the roots that were given.
fn roots(args: &Args, setup: u32) -> Result<Vec<u32>, Failure> {
    let given = args.all(ROOT.name).map(|root| {
        let number = root.parse();
        number.map_err(|_| COMMAND.misused(&format!("`{root}` is no block")))
    });
    std::iter::once(Ok(setup)).chain(given).collect()
}

fn run(args: &Args) -> Answer {
    let [file, out] = args.words[..] else {
        return Err(COMMAND.misused("two files are due"));
    };
    let mut stage = stage(file)?;
    let roots = roots(args, stage.setup)?;
    let before = stage.script.blocks();
    let moved = stage.script.reclaim(&roots);
    let moved = moved.map_err(|refused| Failure::of(file, refused))?;
    let mut said = String::new();
    for (i, root) in roots.iter().enumerate() {
        let what = if i == 0 { "setup block" } else { "block" };
        let now = moved.now(*root);
        let now = now.ok_or_else(|| Failure::of(file, format!("root {root} is gone")))?;
        said += &format!("{what} {root} is now {now}\n");
        if i == 0 {
            stage.setup = now;
        }
    }
    let bytes = grouped(pressing::write(out, &stage)?);
    let after = stage.script.blocks();
    said += &format!("{out}: {after} of {before} blocks kept, {bytes} bytes\n");
    Ok(Said::done(said))
}
