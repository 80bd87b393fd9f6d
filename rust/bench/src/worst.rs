//! The slowest inputs of the parser that were found: hiding blocks under one large condition.
//!
//! Each hiding block asks for the requirements of the whole condition that leads to it, and every
//! requirement there contradicts another one, so that none is left and the parse goes on. An If in
//! each hiding block joins the condition on to the next one. Few blocks under a large condition and
//! many under a small one are both quick; what lies between is tried in steps. Other shapes are
//! blocks that hide all twenty slots under as many requirements that stay as a slot may have, and a condition in which one
//! flag is named again and again. Hiding blocks that stand beside each other, and not on each other, are one shape more: the marks
//! of the condition before serve none of them.

use crate::clock::{row, time};
use compare::convert;
use locustkeno::Script;
use oracle::image;
use oracle::plain::{self, Binary, Block, Code, Command, ENTRIES, Expr, Sheet, Target, Unary};
use oracle::slots::{self, Input};
use std::hint::black_box;

pub fn sheet() -> Sheet {
    Sheet {
        atc_of: vec![None; 3],
        atcs: 0,
        timers: [0, 1, 2],
    }
}

fn flag(number: usize) -> Expr {
    Expr::unary(Unary::Flag, Expr::Imm16(number as i16))
}

/// `first` to `last` flags, each with its contradiction, joined as evenly as it goes.
fn pairs(first: usize, last: usize) -> Expr {
    let (left, right) = if first == last {
        (flag(first), Expr::unary(Unary::Not, flag(first)))
    } else {
        let middle = first.midpoint(last);
        (pairs(first, middle), pairs(middle + 1, last))
    };
    Expr::binary(Binary::BitAnd, left, right)
}

fn block(commands: Vec<Command>, next: Option<usize>) -> Block {
    Block::Code(Code {
        commands,
        next,
        else_block: None,
    })
}

/// A condition, and `hiding` blocks under it that hide `slots` slots each.
fn under(condition: Expr, hiding: usize, slots: i16) -> plain::Script {
    let mut blocks = vec![block(vec![Command::If(condition, 0)], Some(1))];
    for k in 1..=hiding {
        let hides = |slot| Command::Set(Target::Variable(Expr::Imm16(620 + slot)), Expr::Imm16(0));
        let mut commands: Vec<Command> = (0..slots).map(hides).collect();
        commands.push(Command::If(Expr::Other, 0));
        blocks.push(block(commands, (k < hiding).then_some(k + 1)));
    }
    plain::Script { blocks }
}

/// A large condition over `flags` flags, and `hiding` blocks under it.
fn script(flags: usize, hiding: usize) -> plain::Script {
    under(pairs(1, flags), hiding, 1)
}

/// Blocks that hide all slots, under as many flags that stay as a slot may have and 300 that do not.
fn all_slots() -> plain::Script {
    let stay = (1..=ENTRIES)
        .map(flag)
        .reduce(|left, right| Expr::binary(Binary::BitAnd, left, right));
    let stay = stay.expect("there are some");
    let condition = Expr::binary(Binary::BitAnd, stay, pairs(ENTRIES + 1, ENTRIES + 300));
    under(condition, 700, 20)
}

/// `many` times the same flag, joined as evenly as it goes.
fn again(many: usize) -> Expr {
    if many == 1 {
        return flag(1);
    }
    Expr::binary(Binary::BitAnd, again(many / 2), again(many - many / 2))
}

/// Under a large condition a chain of Ifs, each with a hiding block beside the next If: by next, or by else, so that the
/// deepest one comes first. No hiding block stands on the condition of the one before.
fn siblings(flags: usize, hiding: usize, by_else: bool) -> plain::Script {
    let mut blocks = vec![block(vec![Command::If(pairs(1, flags), 0)], Some(1))];
    for k in 0..hiding {
        let (hides, on) = (
            2 * k + 2,
            if k + 1 < hiding { 2 * k + 3 } else { 2 * k + 2 },
        );
        let (next, other) = if by_else { (on, hides) } else { (hides, on) };
        blocks.push(Block::Code(Code {
            commands: vec![Command::If(Expr::Other, other)],
            next: Some(next),
            else_block: Some(other),
        }));
        let count = Command::Set(Target::Variable(Expr::Imm16(620)), Expr::Imm16(0));
        blocks.push(block(vec![count], None));
    }
    plain::Script { blocks }
}

/// How many flags a script with so many hiding blocks has room for: seven nodes each, and three for
/// a hiding block.
fn room(hiding: usize) -> usize {
    (image::NODES - 3 * hiding) / 7
}

/// As many flags as a script with so many hiding blocks has room for.
pub fn by_nodes(hiding: usize) -> plain::Script {
    script(room(hiding), hiding)
}

/// Hiding blocks on each other as an input of `slots`.
pub fn chain_bytes(hiding: usize) -> Vec<u8> {
    by_bytes(hiding, |flags| script(flags, hiding))
}

/// Hiding blocks beside each other as an input of `slots`.
pub fn beside_bytes(hiding: usize) -> Vec<u8> {
    by_bytes(hiding, |flags| siblings(flags, hiding, false))
}

/// As many flags as an input of `slots` with so many hiding blocks has room for.
fn by_bytes(hiding: usize, script: impl Fn(usize) -> plain::Script) -> Vec<u8> {
    let input = |flags| {
        slots::write(&Input {
            sheet: sheet(),
            setup: 0,
            script: script(flags),
        })
    };
    let (mut fits, mut over) = (1, room(hiding) + 1);
    while fits + 1 < over {
        let flags = fits.midpoint(over);
        if input(flags).len() <= slots::INPUT {
            fits = flags;
        } else {
            over = flags;
        }
    }
    input(fits)
}

/// Parses at the limits of a script.
pub fn all() {
    let sheet = convert::sheet(&sheet());
    for hiding in [500, 1_000, 2_000, 3_000, 3_500, 4_000, 4_095] {
        let plain = by_nodes(hiding);
        let script = Script::read(&image::write(&plain)).expect("it is within the limits");
        let ours = time(1, || (), |()| drop(black_box(script.parse(&sheet, 0))));
        let name = format!("{hiding} hide");
        row("parse", &name, &[("library", ours)]);
    }
    others();
}

/// The other shapes.
fn others() {
    let sheet = convert::sheet(&sheet());
    let shapes = [
        ("all slots", all_slots()),
        ("one flag", under(again(6_800), 4_000, 1)),
        ("500 beside", siblings(room(500), 500, false)),
        ("1000 beside", siblings(room(1_000), 1_000, false)),
        ("2000 beside", siblings(room(2_000), 2_000, false)),
        ("2000 by else", siblings(room(2_000), 2_000, true)),
    ];
    for (name, plain) in shapes {
        let script = Script::read(&image::write(&plain)).expect("it is within the limits");
        let ours = time(1, || (), |()| drop(black_box(script.parse(&sheet, 0))));
        row("parse", name, &[("library", ours)]);
    }
}
