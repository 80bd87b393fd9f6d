//! Conversions between the plain trees and the original's own types, both ways.
//!
//! Going in, one expression, command and target outside document 01's kinds speaks for all of
//! them; coming back, all of them are Other.

use crate::data::{Atc, Item};
use crate::event::block::{Block, CodeBlock, DataBlock};
use crate::event::command::{Command, IfArgs, SetArgs};
use crate::event::expr::BinaryOp;
use crate::event::{BlockId, Expr, Pointer, Script, SetExpr};
use crate::{plain, shop};

/// The original's name for block `number`.
pub fn block_id(number: usize) -> BlockId {
    BlockId::try_from(number).expect("the number of a block fits 32 bits")
}

fn pointer(number: usize) -> Pointer {
    Pointer::Block(block_id(number))
}

fn number(pointer: Pointer) -> usize {
    pointer
        .block()
        .expect("every pointer here is a block")
        .index()
}

/// The original's expression for a plain one.
pub fn expr_in(expr: &plain::Expr) -> Expr {
    match expr {
        plain::Expr::Binary(kind, left, right) => binary_in(*kind, left, right),
        plain::Expr::Unary(kind, operand) => unary_in(*kind, expr_in(operand).into()),
        plain::Expr::Imm16(n) => Expr::Imm16(*n),
        plain::Expr::Imm32(n) => Expr::Imm32(*n),
        plain::Expr::Other => Expr::Money,
    }
}

fn binary_in(kind: plain::Binary, left: &plain::Expr, right: &plain::Expr) -> Expr {
    let op = BinaryOp::new(expr_in(left), expr_in(right)).into();
    match kind {
        plain::Binary::Equal => Expr::Equal(op),
        plain::Binary::NotEqual => Expr::NotEqual(op),
        plain::Binary::Less => Expr::Less(op),
        plain::Binary::LessEqual => Expr::LessEqual(op),
        plain::Binary::Greater => Expr::Greater(op),
        plain::Binary::GreaterEqual => Expr::GreaterEqual(op),
        plain::Binary::Add => Expr::Add(op),
        plain::Binary::Subtract => Expr::Subtract(op),
        plain::Binary::BitAnd => Expr::BitAnd(op),
        plain::Binary::BitOr => Expr::BitOr(op),
    }
}

fn unary_in(kind: plain::Unary, operand: Box<Expr>) -> Expr {
    match kind {
        plain::Unary::Not => Expr::Not(operand),
        plain::Unary::Flag => Expr::Flag(operand),
        plain::Unary::Variable => Expr::Variable(operand),
        plain::Unary::Item => Expr::Item(operand),
        plain::Unary::Atc => Expr::Atc(operand),
        plain::Unary::Time => Expr::Time(operand),
    }
}

/// The plain expression for one of the original's.
pub fn expr_out(expr: &Expr) -> plain::Expr {
    if let Some(kind) = binary_kind(expr) {
        let op = expr.binary_op().expect("the kind has two operands");
        return plain::Expr::binary(kind, expr_out(&op.lhs), expr_out(&op.rhs));
    }
    match expr {
        Expr::Not(e) => plain::Expr::unary(plain::Unary::Not, expr_out(e)),
        Expr::Flag(e) => plain::Expr::unary(plain::Unary::Flag, expr_out(e)),
        Expr::Variable(e) => plain::Expr::unary(plain::Unary::Variable, expr_out(e)),
        Expr::Item(e) => plain::Expr::unary(plain::Unary::Item, expr_out(e)),
        Expr::Atc(e) => plain::Expr::unary(plain::Unary::Atc, expr_out(e)),
        Expr::Time(e) => plain::Expr::unary(plain::Unary::Time, expr_out(e)),
        Expr::Imm16(n) => plain::Expr::Imm16(*n),
        Expr::Imm32(n) => plain::Expr::Imm32(*n),
        _ => plain::Expr::Other,
    }
}

fn binary_kind(expr: &Expr) -> Option<plain::Binary> {
    Some(match expr {
        Expr::Equal(_) => plain::Binary::Equal,
        Expr::NotEqual(_) => plain::Binary::NotEqual,
        Expr::Less(_) => plain::Binary::Less,
        Expr::LessEqual(_) => plain::Binary::LessEqual,
        Expr::Greater(_) => plain::Binary::Greater,
        Expr::GreaterEqual(_) => plain::Binary::GreaterEqual,
        Expr::Add(_) => plain::Binary::Add,
        Expr::Subtract(_) => plain::Binary::Subtract,
        Expr::BitAnd(_) => plain::Binary::BitAnd,
        Expr::BitOr(_) => plain::Binary::BitOr,
        _ => return None,
    })
}

fn command_in(command: &plain::Command) -> Command {
    match command {
        plain::Command::Return => Command::Return,
        plain::Command::Goto(block) => Command::Goto(pointer(*block)),
        plain::Command::Set(target, value) => {
            let target = match target {
                plain::Target::Variable(e) => SetExpr::Variable(expr_in(e)),
                plain::Target::Other => SetExpr::Money,
            };
            Command::from(SetArgs::new(target, expr_in(value)))
        }
        plain::Command::If(condition, block) => {
            let args = IfArgs {
                condition: expr_in(condition),
                else_target: pointer(*block),
            };
            Command::If(args.into())
        }
        plain::Command::EndIf(block) => Command::EndIf(pointer(*block)),
        plain::Command::Other => Command::PushBp,
    }
}

fn command_out(command: &Command) -> plain::Command {
    match command {
        Command::Return => plain::Command::Return,
        Command::Goto(block) => plain::Command::Goto(number(*block)),
        Command::Set(args) => {
            let target = match &args.target {
                SetExpr::Variable(e) => plain::Target::Variable(expr_out(e)),
                _ => plain::Target::Other,
            };
            plain::Command::Set(target, expr_out(&args.value))
        }
        Command::If(args) => {
            plain::Command::If(expr_out(&args.condition), number(args.else_target))
        }
        Command::EndIf(block) => plain::Command::EndIf(number(*block)),
        _ => plain::Command::Other,
    }
}

/// The original's script for a plain one.
pub fn script_in(script: &plain::Script) -> Script {
    let blocks: Vec<Block> = script.blocks.iter().map(block_in).collect();
    Script::with_blocks(blocks)
}

fn block_in(block: &plain::Block) -> Block {
    match block {
        plain::Block::Placeholder => Block::Placeholder,
        plain::Block::Data => Block::Data(DataBlock::U8Array(Vec::new())),
        plain::Block::Code(code) => Block::Code(CodeBlock {
            commands: code.commands.iter().map(command_in).collect(),
            next_block: code.next.map(pointer),
            else_block: code.else_block.map(pointer),
        }),
    }
}

/// The plain script for one of the original's.
pub fn script_out(script: &Script) -> plain::Script {
    plain::Script {
        blocks: script.blocks().iter().map(block_out).collect(),
    }
}

fn block_out(block: &Block) -> plain::Block {
    match block {
        Block::Placeholder => plain::Block::Placeholder,
        Block::Data(_) => plain::Block::Data,
        Block::Code(code) => plain::Block::Code(plain::Code {
            commands: code.commands.iter().map(command_out).collect(),
            next: code.next_block.map(number),
            else_block: code.else_block.map(number),
        }),
    }
}

fn item(id: u16) -> Item {
    let id = i16::try_from(id).expect("an item id fits 16 bits");
    Item::try_from(id).expect("the item is on the sheet")
}

fn atc(id: u16) -> Atc {
    let id = i16::try_from(id).expect("an attachment id fits 16 bits");
    Atc::try_from(id).expect("the attachment is on the sheet")
}

/// The original's slot for a plain one, by the sheet in force.
pub fn slot_in(slot: &plain::Slot) -> shop::Slot {
    let requirement = |r: &plain::Requirement| match *r {
        plain::Requirement::HaveItem(n) => shop::Requirement::HaveItem(item(n)),
        plain::Requirement::MissingItem(n) => shop::Requirement::MissingItem(item(n)),
        plain::Requirement::HaveAtc(n) => shop::Requirement::HaveAtc(atc(n)),
        plain::Requirement::MissingAtc(n) => shop::Requirement::MissingAtc(atc(n)),
        plain::Requirement::HaveFlag(n) => shop::Requirement::HaveFlag(n),
        plain::Requirement::MissingFlag(n) => shop::Requirement::MissingFlag(n),
    };
    shop::Slot {
        item: slot.item.map(item),
        limit: slot.limit,
        requirements: slot.requirements.iter().map(requirement).collect(),
    }
}

/// The plain slot for one of the original's, by the sheet in force.
pub fn slot_out(slot: &shop::Slot) -> plain::Slot {
    let requirement = |r: &shop::Requirement| match *r {
        shop::Requirement::HaveItem(i) => plain::Requirement::HaveItem(i.number()),
        shop::Requirement::MissingItem(i) => plain::Requirement::MissingItem(i.number()),
        shop::Requirement::HaveAtc(a) => plain::Requirement::HaveAtc(a.0),
        shop::Requirement::MissingAtc(a) => plain::Requirement::MissingAtc(a.0),
        shop::Requirement::HaveFlag(n) => plain::Requirement::HaveFlag(n),
        shop::Requirement::MissingFlag(n) => plain::Requirement::MissingFlag(n),
    };
    let mut requirements: Vec<_> = slot.requirements.iter().map(requirement).collect();
    requirements.sort_unstable();
    plain::Slot {
        item: slot.item.map(Item::number),
        limit: slot.limit,
        requirements,
    }
}
