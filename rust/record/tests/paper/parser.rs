//! The parser as document 01 tells it.

use oracle::image::Refusal;
use oracle::plain::{Binary, Block, Code, Command, ENTRIES, Expr, Requirement, SLOTS, Script};
use oracle::plain::{Sheet, Slot, Target, Unary};
use std::collections::BTreeSet;

type Set = BTreeSet<Requirement>;

fn negated(requirement: Requirement) -> Requirement {
    match requirement {
        Requirement::HaveItem(n) => Requirement::MissingItem(n),
        Requirement::MissingItem(n) => Requirement::HaveItem(n),
        Requirement::HaveAtc(n) => Requirement::MissingAtc(n),
        Requirement::MissingAtc(n) => Requirement::HaveAtc(n),
        Requirement::HaveFlag(n) => Requirement::MissingFlag(n),
        Requirement::MissingFlag(n) => Requirement::HaveFlag(n),
    }
}

fn value(expr: &Expr) -> Option<i32> {
    match expr {
        Expr::Imm16(n) => Some((*n).into()),
        Expr::Imm32(n) => Some(*n),
        _ => None,
    }
}

/// The id that an expression names, of those below `count`.
fn id(expr: &Expr, count: usize) -> Option<u16> {
    let id = u16::try_from(value(expr)?).ok()?;
    (usize::from(id) < count).then_some(id)
}

/// What a single test reads as.
fn reading(sheet: &Sheet, expr: &Expr) -> Option<Requirement> {
    match expr {
        Expr::Binary(kind, left, right) if value(right) == Some(0) => {
            let inner = || reading(sheet, left);
            match kind {
                Binary::NotEqual | Binary::Greater => inner(),
                Binary::Equal | Binary::LessEqual => inner().map(negated),
                _ => None,
            }
        }
        Expr::Unary(Unary::Item, e) => id(e, sheet.items()).map(Requirement::HaveItem),
        Expr::Unary(Unary::Atc, e) => id(e, sheet.atcs.into()).map(Requirement::HaveAtc),
        Expr::Unary(Unary::Flag, e) => value(e).map(Requirement::HaveFlag),
        _ => None,
    }
}

/// Adds what a condition requires, or what its negation does.
fn gather(sheet: &Sheet, expr: &Expr, negate: bool, set: &mut Set) {
    match expr {
        Expr::Binary(Binary::BitAnd | Binary::BitOr, left, right) => {
            gather(sheet, left, negate, set);
            gather(sheet, right, negate, set);
        }
        Expr::Unary(Unary::Not, inner) => gather(sheet, inner, !negate, set),
        _ => {
            let found = reading(sheet, expr);
            set.extend(found.map(|r| if negate { negated(r) } else { r }));
        }
    }
}

/// What the commands of a block say of each slot.
type Writes = [(Option<i16>, Option<i16>); SLOTS];

struct Walk<'s> {
    sheet: &'s Sheet,
    slots: Vec<Slot>,
    limit: i16,
}

impl Walk<'_> {
    /// Whether variable 0 is set to what is left of a limit.
    fn takes_limit(&mut self, expr: &Expr) {
        if let Expr::Binary(Binary::Subtract, left, right) = expr
            && let Expr::Unary(Unary::Item, item) = &**right
            && let (Some(limit), Some(_)) = (value(left), value(item))
        {
            self.limit = limit as i16;
        }
    }

    fn writes(&mut self, code: &Code) -> Writes {
        let mut writes = Writes::default();
        for command in &code.commands {
            let Command::Set(Target::Variable(target), expr) = command else {
                continue;
            };
            let Some(target) = value(target) else {
                continue;
            };
            if target == 0 {
                self.takes_limit(expr);
                continue;
            }
            let written = match expr {
                Expr::Unary(Unary::Variable, v) if value(v) == Some(0) => Some(self.limit),
                _ => value(expr).map(|n| n as i16),
            };
            match target {
                _ if written.is_none() => (),
                600..=619 => writes[target as usize - 600].0 = written,
                620..=639 => writes[target as usize - 620].1 = written,
                _ => (),
            }
        }
        writes
    }

    fn update(&mut self, writes: &Writes, condition: &Set) -> Result<(), Refusal> {
        let kept = condition
            .iter()
            .copied()
            .filter(|r| !condition.contains(&negated(*r)));
        let hidden: Set = kept.map(negated).collect();
        for (slot, write) in self.slots.iter_mut().zip(writes) {
            let (item, Some(count)) = *write else {
                continue;
            };
            let Some(item) = item.and_then(|i| u16::try_from(i).ok()) else {
                let all: Set = slot.requirements.iter().chain(&hidden).copied().collect();
                slot.requirements = all.into_iter().collect();
                if slot.requirements.len() > ENTRIES {
                    return Err(Refusal(11));
                }
                continue;
            };
            if usize::from(item) < self.sheet.items() {
                slot.item = slot.item.or(Some(item));
            }
            if count > 0 {
                slot.limit = count;
            }
        }
        Ok(())
    }
}

/// The conditions of a block's next and else.
fn conditions(sheet: &Sheet, code: &Code, before: &Set) -> (Set, Set) {
    let mut after = (Set::new(), Set::new());
    for command in &code.commands {
        if let Command::If(condition, _) = command {
            after = (before.clone(), before.clone());
            gather(sheet, condition, false, &mut after.0);
            gather(sheet, condition, true, &mut after.1);
        }
    }
    after
}

/// Parses from a block that is there and is code.
pub fn parse(sheet: &Sheet, script: &Script, setup: usize) -> Result<Vec<Slot>, Refusal> {
    let mut walk = Walk {
        sheet,
        slots: vec![Slot::default(); SLOTS],
        limit: 0,
    };
    let mut seen = vec![false; script.blocks.len()];
    let mut waiting = vec![(setup, Set::new())];
    while let Some((block, condition)) = waiting.pop() {
        if seen[block] {
            continue;
        }
        seen[block] = true;
        let Block::Code(code) = &script.blocks[block] else {
            return Err(Refusal(10));
        };
        let writes = walk.writes(code);
        walk.update(&writes, &condition)?;
        let (next, other) = conditions(sheet, code, &condition);
        if let Some(block) = code.next {
            waiting.extend(code.else_block.map(|b| (b, other)));
            waiting.push((block, next));
        }
    }
    Ok(walk.slots)
}
