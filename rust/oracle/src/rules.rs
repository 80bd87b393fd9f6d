//! Refusals of parse and compile over the answers of the original: 6 to 11 of document 01, and 17 of document 02.

use crate::calls;
use crate::image::{self, Refusal};
use crate::plain::{Block, Code, Command, ENTRIES, Expr, Requirement, SLOTS, Script};
use crate::plain::{Sheet, Slot, Target, Unary};

/// How much a script holds, or how much a compile adds.
#[derive(Debug, Copy, Clone, Default, PartialEq, Eq)]
pub struct Counts {
    pub blocks: usize,
    pub commands: usize,
    pub nodes: usize,
}

impl Counts {
    /// What `blocks` hold.
    pub fn of(blocks: &[Block]) -> Self {
        let mut counts = Self {
            blocks: blocks.len(),
            ..Self::default()
        };
        for block in blocks {
            if let Block::Code(code) = block {
                counts.commands += code.commands.len();
                counts.nodes += code.commands.iter().map(command_nodes).sum::<usize>();
            }
        }
        counts
    }

    fn plus(self, other: Self) -> Self {
        Self {
            blocks: self.blocks + other.blocks,
            commands: self.commands + other.commands,
            nodes: self.nodes + other.nodes,
        }
    }

    fn passes_a_limit(self) -> bool {
        self.blocks > image::BLOCKS || self.commands > image::COMMANDS || self.nodes > image::NODES
    }
}

fn command_nodes(command: &Command) -> usize {
    match command {
        Command::Set(Target::Variable(target), value) => nodes(target) + nodes(value),
        Command::Set(Target::Other, value) => nodes(value),
        Command::If(condition, _) => nodes(condition),
        _ => 0,
    }
}

fn nodes(expr: &Expr) -> usize {
    match expr {
        Expr::Binary(_, left, right) => 1 + nodes(left) + nodes(right),
        Expr::Unary(_, operand) => 1 + nodes(operand),
        _ => 1,
    }
}

/// Refusals 6 and 7: the number given is not a block, or that block is not code.
pub fn check_setup(script: &Script, setup: usize) -> Result<(), Refusal> {
    match script.blocks.get(setup) {
        None => Err(Refusal(6)),
        Some(Block::Code(_)) => Ok(()),
        Some(_) => Err(Refusal(7)),
    }
}

/// Refusal 8: an id outside the sheet, or too many entries in a slot. Slots past the twentieth
/// are dropped unchecked.
pub fn check_shop(sheet: &Sheet, slots: &[Slot]) -> Result<(), Refusal> {
    let item = |n: u16| usize::from(n) < sheet.items();
    let known = |r: &Requirement| match *r {
        Requirement::HaveItem(n) | Requirement::MissingItem(n) => item(n),
        Requirement::HaveAtc(n) | Requirement::MissingAtc(n) => n < sheet.atcs,
        Requirement::HaveFlag(_) | Requirement::MissingFlag(_) => true,
    };
    let fits = |slot: &Slot| {
        slot.item.is_none_or(item)
            && slot.requirements.len() <= ENTRIES
            && slot.requirements.iter().all(known)
    };
    if slots.iter().take(SLOTS).all(fits) {
        Ok(())
    } else {
        Err(Refusal(8))
    }
}

/// What compiling a shop adds, counted in what the original appends.
pub fn added(sheet: &Sheet, slots: &[Slot]) -> Counts {
    let mut script = Script {
        blocks: vec![Block::Code(Code::default())],
    };
    calls::compile(sheet, &mut script, 0, slots).expect("the shop was checked");
    Counts::of(&script.blocks[1..])
}

/// A script in use, with the counts that never fall and where each block came from.
#[derive(Debug, Clone)]
pub struct InUse {
    pub script: Script,
    pub kept: Counts,
    /// For each block 0 if it was read or built at the start, else the ordinal of the accepted compile
    /// that appended it.
    pub births: Vec<u32>,
    /// How many compiles were accepted.
    pub compiles: u32,
}

impl InUse {
    /// A script that was just read or built.
    pub fn new(script: Script) -> Self {
        let births = vec![0; script.blocks.len()];
        Self::born(script, births, 0)
    }

    /// A script with a mark for each block and a count of compiles.
    pub fn born(script: Script, births: Vec<u32>, compiles: u32) -> Self {
        let kept = Counts::of(&script.blocks);
        Self {
            script,
            kept,
            births,
            compiles,
        }
    }

    /// Compiles as documents 01 and 02 say: refusals 6, 7, 17, 8 and 9 first, then the original.
    pub fn compile(&mut self, sheet: &Sheet, setup: usize, slots: &[Slot]) -> Result<(), Refusal> {
        check_setup(&self.script, setup)?;
        if self.births[setup] != 0 {
            return Err(Refusal(17));
        }
        check_shop(sheet, slots)?;
        let kept = self.kept.plus(added(sheet, slots));
        if kept.passes_a_limit() {
            return Err(Refusal(9));
        }
        calls::compile(sheet, &mut self.script, setup, slots).expect("nothing is left to panic");
        self.kept = kept;
        self.compiles = self.compiles.saturating_add(1);
        self.births.resize(kept.blocks, self.compiles);
        Ok(())
    }
}

/// Parses as document 01 says: refusals 6, 7, 10 and 11, and otherwise the original's reading.
pub fn parse(sheet: &Sheet, script: &Script, setup: usize) -> Result<Vec<Slot>, Refusal> {
    check_setup(script, setup)?;
    let mut readable = without_cut_ids(script);
    let stopped = stop_at_first_stray(&mut readable, setup);
    let slots = calls::parse(sheet, &readable, setup).expect("only code is left to reach");
    // Requirements are never taken out of a slot, so what it holds at the end tells.
    if slots.iter().any(|slot| slot.requirements.len() > ENTRIES) {
        return Err(Refusal(11));
    }
    if stopped { Err(Refusal(10)) } else { Ok(slots) }
}

/// Blanks all blocks that the walk has not read when it first reaches one that is not code, so
/// that the original stops there too, with what it has gathered so far. Says whether it did.
///
/// The walk is `parse_block`'s: each block once, next before else, else only where there is a
/// next. The original's own walk meets the same blocks in the same order up to that point.
fn stop_at_first_stray(script: &mut Script, setup: usize) -> bool {
    let mut read = vec![false; script.blocks.len()];
    let mut waiting = vec![setup];
    let mut stopped = false;
    while let Some(block) = waiting.pop() {
        if read[block] {
            continue;
        }
        let Block::Code(code) = &script.blocks[block] else {
            stopped = true;
            break;
        };
        read[block] = true;
        if let Some(next) = code.next {
            waiting.extend(code.else_block);
            waiting.push(next);
        }
    }
    for (block, read) in script.blocks.iter_mut().zip(read) {
        if stopped && !read {
            *block = Block::Code(Code::default());
        }
    }
    stopped
}

/// The script with every Imm32 that is no id by document 01, but that the original would cut to
/// one, made a number that is no id under both. Nothing else tells the two numbers apart where an
/// item or attachment id is due.
pub fn without_cut_ids(script: &Script) -> Script {
    let mut script = script.clone();
    for block in &mut script.blocks {
        let Block::Code(code) = block else { continue };
        for command in &mut code.commands {
            match command {
                Command::Set(target, value) => {
                    if let Target::Variable(target) = target {
                        drop_cut_ids(target);
                    }
                    drop_cut_ids(value);
                }
                Command::If(condition, _) => drop_cut_ids(condition),
                _ => (),
            }
        }
    }
    script
}

fn drop_cut_ids(expr: &mut Expr) {
    match expr {
        Expr::Binary(_, left, right) => {
            drop_cut_ids(left);
            drop_cut_ids(right);
        }
        Expr::Unary(kind, operand) => match (kind, &mut **operand) {
            (Unary::Item | Unary::Atc, Expr::Imm32(n)) if i16::try_from(*n).is_err() => *n = -1,
            (_, operand) => drop_cut_ids(operand),
        },
        _ => (),
    }
}
