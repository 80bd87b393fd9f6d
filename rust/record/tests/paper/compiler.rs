//! The compiler as document 01 tells it.

use oracle::plain::{Binary, Block, Code, Command, Expr, Requirement, SLOTS, Script, Sheet};
use oracle::plain::{Slot, Target, Unary};

const RATES: [i16; 3] = [200, 100, 67];

/// A constant, in 16 bits where it fits.
fn imm(n: i32) -> Expr {
    i16::try_from(n).map_or(Expr::Imm32(n), Expr::Imm16)
}

fn read(kind: Unary, n: i32) -> Expr {
    Expr::unary(kind, imm(n))
}

/// The test of a requirement.
fn test(requirement: Requirement) -> Expr {
    let item = |kind, n: u16| Expr::binary(kind, read(Unary::Item, n.into()), imm(0));
    let atc = |kind, n: u16| Expr::binary(kind, read(Unary::Atc, n.into()), imm(0));
    match requirement {
        Requirement::HaveItem(n) => item(Binary::NotEqual, n),
        Requirement::MissingItem(n) => item(Binary::Equal, n),
        Requirement::HaveAtc(n) => atc(Binary::NotEqual, n),
        Requirement::MissingAtc(n) => atc(Binary::Equal, n),
        Requirement::HaveFlag(n) => read(Unary::Flag, n),
        Requirement::MissingFlag(n) => Expr::unary(Unary::Not, read(Unary::Flag, n)),
    }
}

fn and(left: Expr, right: Expr) -> Expr {
    Expr::binary(Binary::BitAnd, left, right)
}

fn set(variable: usize, value: Expr) -> Command {
    Command::Set(Target::Variable(imm(variable as i32)), value)
}

/// Pushes blocks, each with its next and else as document 01 says.
struct Pusher<'s> {
    sheet: &'s Sheet,
    blocks: Vec<Block>,
    last: Option<usize>,
}

impl Pusher<'_> {
    fn push(&mut self, commands: Vec<Command>) -> usize {
        let (next, else_block) = match commands.last() {
            Some(Command::EndIf(target)) => (Some(*target), None),
            Some(Command::If(_, other)) => (self.last, Some(*other)),
            _ => (self.last, None),
        };
        self.blocks.push(Block::Code(Code {
            commands,
            next,
            else_block,
        }));
        let block = self.blocks.len() - 1;
        self.last = Some(block);
        block
    }

    /// A block that writes a slot's pair and then goes to `end`, if one is given.
    fn write(&mut self, slot: usize, item: i32, count: Expr, end: Option<usize>) -> usize {
        let mut commands = vec![set(600 + slot, imm(item)), set(620 + slot, count)];
        commands.extend(end.map(Command::EndIf));
        self.push(commands)
    }

    fn slot(&mut self, index: usize, slot: &Slot) {
        let end = self.last.expect("the Return block is there");
        let mut entries = slot.requirements.clone();
        entries.sort_unstable();
        entries.dedup();
        let tests = entries.into_iter().map(test).reduce(and);
        let Some(item) = slot.item else {
            self.write(index, -1, imm(0), None);
            return;
        };
        let hide = tests.as_ref().map(|_| self.write(index, -1, imm(0), None));
        let timer = self.sheet.timers.iter().position(|&t| t == item);
        let unique = self.sheet.atc_of[usize::from(item)].is_some() || timer.is_some();
        let limit = if unique { 1 } else { slot.limit.clamp(1, 10) };
        if limit == 1 {
            self.unique(index, item, timer, end, hide, tests);
        } else {
            self.limited(index, item, limit, end, hide, tests);
        }
    }

    /// The acquired test and its negation.
    fn acquired(&self, item: u16, timer: Option<usize>) -> (Expr, Expr) {
        let atc = self.sheet.atc_of[usize::from(item)];
        let (have, missing) = match atc {
            Some(atc) => (Requirement::HaveAtc(atc), Requirement::MissingAtc(atc)),
            None => (Requirement::HaveItem(item), Requirement::MissingItem(item)),
        };
        let Some(timer) = timer else {
            return (test(have), test(missing));
        };
        let time = |kind| Expr::binary(kind, read(Unary::Time, 2), Expr::Imm16(RATES[timer]));
        (
            Expr::binary(Binary::BitOr, test(have), time(Binary::Equal)),
            and(test(missing), time(Binary::NotEqual)),
        )
    }

    fn unique(
        &mut self,
        index: usize,
        item: u16,
        timer: Option<usize>,
        end: usize,
        hide: Option<usize>,
        tests: Option<Expr>,
    ) {
        let (acquired, missing) = self.acquired(item, timer);
        let disabled = self.write(index, item.into(), imm(0), hide.map(|_| end));
        let other = match hide {
            Some(hide) => self.push(vec![Command::If(acquired, hide)]),
            None => disabled,
        };
        let enabled = self.write(index, item.into(), imm(1), Some(end));
        if timer == Some(0) {
            self.write(index, item.into(), imm(0), Some(end));
            let [_, ten, fifteen] = self.sheet.timers.map(|t| test(Requirement::MissingItem(t)));
            self.push(vec![Command::If(and(ten, fifteen), enabled)]);
        }
        let condition = match tests {
            Some(tests) => and(missing, tests),
            None => missing,
        };
        self.push(vec![Command::If(condition, other)]);
    }

    fn limited(
        &mut self,
        index: usize,
        item: u16,
        limit: i16,
        end: usize,
        hide: Option<usize>,
        tests: Option<Expr>,
    ) {
        let zero = || read(Unary::Variable, 0);
        let write = self.write(index, item.into(), zero(), hide.map(|_| end));
        self.push(vec![set(0, imm(0))]);
        let left = Expr::binary(
            Binary::Subtract,
            imm(limit.into()),
            read(Unary::Item, item.into()),
        );
        let below = Expr::binary(Binary::Less, zero(), imm(0));
        self.push(vec![set(0, left), Command::If(below, write)]);
        if let (Some(tests), Some(hide)) = (tests, hide) {
            self.push(vec![Command::If(tests, hide)]);
        }
    }
}

/// Compiles a shop at a block that is there and is code.
pub fn compile(sheet: &Sheet, script: &Script, setup: usize, slots: &[Slot]) -> Script {
    let mut pusher = Pusher {
        sheet,
        blocks: script.blocks.clone(),
        last: None,
    };
    pusher.push(vec![Command::Return]);
    for index in (0..SLOTS).rev() {
        let empty = Slot::default();
        pusher.slot(index, slots.get(index).unwrap_or(&empty));
    }
    let mut blocks = pusher.blocks;
    blocks[setup] = Block::Code(Code {
        next: pusher.last,
        ..Code::default()
    });
    Script { blocks }
}
