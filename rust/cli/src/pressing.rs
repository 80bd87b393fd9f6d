//! A stage file with its shop: reading it, judging it, and writing it anew.

use crate::args::{Args, Opt, Takes};
use crate::files;
use crate::names::Names;
use crate::said::Failure;
use crate::table::grouped;
use crate::words;
use locustkeno::{Finding, Found, Loader, Refusal, Refused, STAGE_BYTES, Script, Shop, Stage};

/// Names for numbers, for the commands that show or take any.
pub const NAMES: Opt = Opt {
    name: "--names",
    takes: Takes::One,
    value: "NAMES",
    about: "a names file: lines as `item 7 toothbrush`, `flag 40 met_telly`",
};

/// The names that a command was given.
pub fn names(args: &Args) -> Result<Names, Failure> {
    let Some(file) = args.one(NAMES.name) else {
        return Ok(Names::default());
    };
    Names::read(&files::read_text(file)?).map_err(|bad| Failure::at(file, &bad))
}

/// The stage of a file.
pub fn stage(file: &str) -> Result<Stage, Failure> {
    Stage::read(&files::read(file)?).map_err(|refused| Failure::of(file, refused))
}

/// A stage file and the shop that is read at its setup block.
pub struct Pressing<'a> {
    pub file: &'a str,
    /// The file as it is.
    pub bytes: Vec<u8>,
    pub stage: Stage,
    pub shop: Shop,
}

impl<'a> Pressing<'a> {
    pub fn read(file: &'a str) -> Result<Self, Failure> {
        let bytes = files::read(file)?;
        let refused = |refused: Refused| Failure::of(file, refused);
        let stage = Stage::read(&bytes).map_err(refused)?;
        let shop = stage.script.parse(&stage.sheet, stage.setup);
        Ok(Self {
            file,
            bytes,
            shop: shop.map_err(refused)?,
            stage,
        })
    }

    /// A refusal of a call about this file.
    pub fn refused(&self, refused: Refused) -> Failure {
        Failure::of(self.file, refused)
    }

    /// What is to know before this file is signed.
    pub fn verdict(&self) -> Result<Verdict, Failure> {
        let judged = || -> Result<Verdict, Refused> {
            Ok(Verdict {
                findings: self.shop.check(&self.stage.sheet)?,
                pressed: is_pressed(&self.stage, &self.shop)?,
            })
        };
        judged().map_err(|refused| self.refused(refused))
    }
}

/// A script of one block, a Return.
const RETURN: [u8; 6] = [1, 1, 1, 0, 0, 0];

/// The image of just the blocks that a block leads to, and its number there.
fn reached(script: &Script, block: u32) -> Result<(Option<u32>, Vec<u8>), Refused> {
    let mut script = script.clone();
    let moved = script.reclaim(&[block])?;
    Ok((moved.now(block), script.write()?))
}

/// Whether the setup block leads to just the blocks that compiling the shop gives. Then the run is that of the shop, as
/// the library's theorems have it; a script made by hand, or pressed from a text that was read back otherwise, may do something else.
fn is_pressed(stage: &Stage, shop: &Shop) -> Result<bool, Refused> {
    let mut fresh = Script::read(&RETURN)?;
    fresh.compile(&stage.sheet, Loader::Disc, 0, shop)?;
    Ok(reached(&stage.script, stage.setup)? == reached(&fresh, 0)?)
}

/// Whether two pressings of the same slots are known to run alike: each is its table compiled, or they lead to the same blocks.
pub fn run_alike(one: &Pressing, other: &Pressing) -> Result<bool, Refused> {
    // A shop that cannot be compiled was not.
    let pressed = |one: &Pressing| is_pressed(&one.stage, &one.shop).unwrap_or(false);
    let reached = |one: &Pressing| reached(&one.stage.script, one.stage.setup);
    Ok(reached(one)? == reached(other)? || (pressed(one) && pressed(other)))
}

/// Whether the finding is a reason not to sign: what is printed is not what runs, or no run gets through.
pub fn forbids(finding: &Finding) -> bool {
    finding.differs() || matches!(finding.what, Found::FlagOutside { .. })
}

/// What is to know before a file is signed.
pub struct Verdict {
    pub findings: Vec<Finding>,
    /// Whether the script is the table compiled.
    pub pressed: bool,
}

/// Said of a script that is not its table compiled.
pub const NOT_PRESSED: &str =
    "the script is not what compiling this table gives: what runs may be something else";

impl Verdict {
    pub fn says_no(&self) -> bool {
        !self.pressed || self.findings.iter().any(forbids)
    }

    /// A line for each finding, the script's own last.
    pub fn lines(&self, names: &Names) -> Vec<String> {
        let findings = self.findings.iter();
        let mut lines: Vec<String> = findings.map(|one| words::finding(one, names)).collect();
        if !self.pressed {
            lines.push(NOT_PRESSED.into());
        }
        lines
    }
}

/// Writes a stage whole or not at all, and answers the length of the file. One that would be too long to be read again is refused.
pub fn write(file: &str, stage: &Stage) -> Result<usize, Failure> {
    let bytes = stage.write().map_err(|refused| match refused.refusal() {
        Refusal::SliceShort => {
            let most = grouped(STAGE_BYTES);
            let why = format!("{refused}; a stage has at most {most} bytes, reclaim first");
            Failure::of(file, why)
        }
        _ => Failure::of(file, refused),
    })?;
    files::write_whole(file, &bytes)?;
    Ok(bytes.len())
}
