//! The trees that a script's arrays stand for.

use locustkeno::Arrays;
use oracle::plain::{Binary, Block, Code, Command, Expr, Script, Target, Unary};

/// The kinds with two operands, by code; 6 is Not.
const BINARY: [Option<Binary>; 11] = [
    Some(Binary::Equal),
    Some(Binary::NotEqual),
    Some(Binary::Less),
    Some(Binary::LessEqual),
    Some(Binary::Greater),
    Some(Binary::GreaterEqual),
    None,
    Some(Binary::Add),
    Some(Binary::Subtract),
    Some(Binary::BitAnd),
    Some(Binary::BitOr),
];

fn unary(code: u16) -> Option<Unary> {
    Some(match code {
        6 => Unary::Not,
        13 => Unary::Flag,
        14 => Unary::Variable,
        15 => Unary::Item,
        16 => Unary::Atc,
        17 => Unary::Time,
        _ => return None,
    })
}

/// A node of a record that the library accepted.
fn expr(a: &Arrays, node: u16) -> Expr {
    let at = usize::from(node);
    let [code, left, right] = [0, 1, 2].map(|k| a.ws[3 * at + k]);
    if let Some(Some(kind)) = BINARY.get(usize::from(code)) {
        return Expr::binary(*kind, expr(a, left), expr(a, right));
    }
    if let Some(kind) = unary(code) {
        return Expr::unary(kind, expr(a, left));
    }
    match code {
        11 => Expr::Imm16(a.val[at] as i16),
        12 => Expr::Imm32(a.val[at]),
        _ => Expr::Other,
    }
}

fn command(a: &Arrays, at: usize) -> Command {
    let [code, first, second, block] = [0, 1, 2, 3].map(|k| a.cw[4 * at + k]);
    match code {
        0 => Command::Return,
        1 => Command::Goto(block.into()),
        2 if block == 0 => Command::Set(Target::Variable(expr(a, first)), expr(a, second)),
        2 => Command::Set(Target::Other, expr(a, second)),
        3 => Command::If(expr(a, first), block.into()),
        4 => Command::EndIf(block.into()),
        _ => Command::Other,
    }
}

fn block(a: &Arrays, at: usize) -> Block {
    let [kind, first, many, next, other] = [0, 1, 2, 3, 4].map(|k| usize::from(a.bw[5 * at + k]));
    match kind {
        0 => Block::Placeholder,
        1 => Block::Code(Code {
            commands: (first..first + many).map(|c| command(a, c)).collect(),
            next: next.checked_sub(1),
            else_block: other.checked_sub(1),
        }),
        _ => Block::Data,
    }
}

/// The script that the arrays hold.
pub fn script(a: &Arrays) -> Script {
    Script {
        blocks: (0..a.blocks.into()).map(|at| block(a, at)).collect(),
    }
}
