//! What a script holds, as values: its blocks, their commands and their expressions.

use crate::arrays::Arrays;
use crate::{Refused, Script};
use std::fmt;

/// An operator of two operands. And and Or are bitwise in a run.
#[derive(Debug, Copy, Clone, PartialEq, Eq, Hash)]
pub enum Op2 {
    /// `==`
    Equal,
    /// `!=`
    NotEqual,
    /// `<`
    Less,
    /// `<=`
    LessEqual,
    /// `>`
    Greater,
    /// `>=`
    GreaterEqual,
    /// `+`
    Add,
    /// `-`
    Subtract,
    /// `&`
    BitAnd,
    /// `|`
    BitOr,
}

/// An operator of one operand: Not, or a read of the save at the operand's number.
#[derive(Debug, Copy, Clone, PartialEq, Eq, Hash)]
pub enum Op1 {
    /// 1 for 0, and 0 for any other number.
    Not,
    /// A flag.
    Flag,
    /// A variable.
    Variable,
    /// The count of an item.
    Item,
    /// An attachment.
    Atc,
    /// A time.
    Time,
}

/// An expression.
#[derive(Debug, Clone, PartialEq, Eq, Hash)]
pub enum Expr {
    /// Two operands.
    Two(Op2, Box<Expr>, Box<Expr>),
    /// One operand.
    One(Op1, Box<Expr>),
    /// A number of 16 bits.
    Imm16(i16),
    /// A number of 32 bits.
    Imm32(i32),
    /// Any other: no run evaluates it, and no parse reads it.
    Other,
}

/// A command of a block.
#[derive(Debug, Clone, PartialEq, Eq, Hash)]
pub enum Command {
    /// Ends the run.
    Return,
    /// Goes on at a block.
    Goto(u16),
    /// The number of the variable, and its value.
    Set(Expr, Expr),
    /// A Set of anything but a variable, and its value.
    SetOther(Expr),
    /// The condition, and where to go where it is 0.
    If(Expr, u16),
    /// Goes on at a block, past an If.
    EndIf(u16),
    /// Any other: no run goes past it.
    Other,
}

/// A block of a script.
#[derive(Debug, Clone, PartialEq, Eq, Hash)]
pub enum Block {
    /// A place without a block.
    Placeholder,
    /// Code.
    Code {
        /// Its commands.
        commands: Vec<Command>,
        /// Where a run goes on after the last command, or where an If is met.
        next: Option<u16>,
        /// What a parse takes for the way on where the last If is not met; a run takes the If's own.
        otherwise: Option<u16>,
    },
    /// Data.
    Data,
}

/// Reads arrays that were judged, so that every operand lies below its parent and no expression is deeper than 64.
struct Reader<'a>(&'a Arrays);

impl Reader<'_> {
    fn boxed(&self, node: u16) -> Box<Expr> {
        Box::new(self.expr(node))
    }

    fn expr(&self, node: u16) -> Expr {
        let at = usize::from(node);
        let [code, left, right] = [0, 1, 2].map(|i| self.0.ws[3 * at + i]);
        let two = |op| Expr::Two(op, self.boxed(left), self.boxed(right));
        let one = |op| Expr::One(op, self.boxed(left));
        match code {
            0 => two(Op2::Equal),
            1 => two(Op2::NotEqual),
            2 => two(Op2::Less),
            3 => two(Op2::LessEqual),
            4 => two(Op2::Greater),
            5 => two(Op2::GreaterEqual),
            6 => one(Op1::Not),
            7 => two(Op2::Add),
            8 => two(Op2::Subtract),
            9 => two(Op2::BitAnd),
            10 => two(Op2::BitOr),
            11 => Expr::Imm16(self.0.val[at] as i16),
            12 => Expr::Imm32(self.0.val[at]),
            13 => one(Op1::Flag),
            14 => one(Op1::Variable),
            15 => one(Op1::Item),
            16 => one(Op1::Atc),
            17 => one(Op1::Time),
            _ => Expr::Other,
        }
    }

    fn command(&self, command: usize) -> Command {
        let [code, first, second, block] = [0, 1, 2, 3].map(|i| self.0.cw[4 * command + i]);
        match code {
            0 => Command::Return,
            1 => Command::Goto(block),
            2 if block == 0 => Command::Set(self.expr(first), self.expr(second)),
            2 => Command::SetOther(self.expr(second)),
            3 => Command::If(self.expr(first), block),
            4 => Command::EndIf(block),
            _ => Command::Other,
        }
    }

    fn block(&self, block: usize) -> Block {
        let [kind, first, count, next, otherwise] =
            [0, 1, 2, 3, 4].map(|i| self.0.bw[5 * block + i]);
        match kind {
            0 => Block::Placeholder,
            1 => Block::Code {
                commands: (0..usize::from(count))
                    .map(|i| self.command(usize::from(first) + i))
                    .collect(),
                next: next.checked_sub(1),
                otherwise: otherwise.checked_sub(1),
            },
            _ => Block::Data,
        }
    }
}

impl Script {
    /// The blocks of the script, in their order. A record that the library does not accept is refused with 2 to 5.
    ///
    /// ```
    /// use locustkeno::{Block, Command, Refused, Script};
    /// let script = Script::read(&[2, 1, 1, 1, 1, 0, 0, 2])?;
    /// let blocks: Vec<Block> = script.view()?.collect();
    /// assert_eq!(blocks[0], Block::Code { commands: vec![Command::Goto(1)], next: None, otherwise: None });
    /// assert_eq!(blocks[1], Block::Data);
    /// assert_eq!(format!("{script:#?}"), "block 0: Goto 1\nblock 1: data");
    /// # Ok::<(), Refused>(())
    /// ```
    pub fn view(&self) -> Result<impl Iterator<Item = Block> + '_, Refused> {
        // Writing judges the whole record first.
        self.write()?;
        let reader = Reader(self.arrays());
        Ok((0..self.blocks()).map(move |block| reader.block(block)))
    }
}

impl Op2 {
    fn sign(self) -> &'static str {
        match self {
            Self::Equal => "==",
            Self::NotEqual => "!=",
            Self::Less => "<",
            Self::LessEqual => "<=",
            Self::Greater => ">",
            Self::GreaterEqual => ">=",
            Self::Add => "+",
            Self::Subtract => "-",
            Self::BitAnd => "&",
            Self::BitOr => "|",
        }
    }
}

impl fmt::Display for Expr {
    fn fmt(&self, f: &mut fmt::Formatter<'_>) -> fmt::Result {
        match self {
            Self::Two(op, left, right) => write!(f, "({left} {} {right})", op.sign()),
            Self::One(Op1::Not, operand) => write!(f, "!{operand}"),
            Self::One(Op1::Flag, operand) => write!(f, "flag[{operand}]"),
            Self::One(Op1::Variable, operand) => write!(f, "var[{operand}]"),
            Self::One(Op1::Item, operand) => write!(f, "item[{operand}]"),
            Self::One(Op1::Atc, operand) => write!(f, "atc[{operand}]"),
            Self::One(Op1::Time, operand) => write!(f, "time[{operand}]"),
            Self::Imm16(n) => write!(f, "{n}"),
            Self::Imm32(n) => write!(f, "{n}_i32"),
            Self::Other => write!(f, "?"),
        }
    }
}

impl fmt::Display for Command {
    fn fmt(&self, f: &mut fmt::Formatter<'_>) -> fmt::Result {
        match self {
            Self::Return => write!(f, "Return"),
            Self::Goto(block) => write!(f, "Goto {block}"),
            Self::Set(variable, value) => write!(f, "var[{variable}] := {value}"),
            Self::SetOther(value) => write!(f, "? := {value}"),
            Self::If(condition, block) => write!(f, "If {condition} else {block}"),
            Self::EndIf(block) => write!(f, "EndIf {block}"),
            Self::Other => write!(f, "?"),
        }
    }
}

impl fmt::Display for Block {
    fn fmt(&self, f: &mut fmt::Formatter<'_>) -> fmt::Result {
        let (commands, next, otherwise) = match self {
            Self::Placeholder => return write!(f, "placeholder"),
            Self::Data => return write!(f, "data"),
            Self::Code {
                commands,
                next,
                otherwise,
            } => (commands, next, otherwise),
        };
        let mut parts: Vec<String> = commands.iter().map(Command::to_string).collect();
        parts.extend(next.map(|block| format!("next {block}")));
        parts.extend(otherwise.map(|block| format!("else {block}")));
        write!(f, "{}", parts.join("; "))
    }
}

/// Short with `{:?}`; with `{:#?}` a line for each block.
impl fmt::Debug for Script {
    fn fmt(&self, f: &mut fmt::Formatter<'_>) -> fmt::Result {
        if let (true, Ok(blocks)) = (f.alternate(), self.view()) {
            let lines: Vec<String> = blocks
                .enumerate()
                .map(|(i, block)| format!("block {i}: {block}"))
                .collect();
            return write!(f, "{}", lines.join("\n"));
        }
        let a = self.arrays();
        write!(
            f,
            "Script {{ blocks: {}, commands: {}, nodes: {}, compiles: {} }}",
            a.blocks, a.commands, a.nodes, a.compiles
        )
    }
}

/// Two scripts are equal where their blocks, their kept counts, their birth marks and their counts of compiles are; what lies past
/// the kept counts does not tell. Records that the library does not accept are compared word by word.
///
/// ```
/// use locustkeno::{Refused, Script};
/// let mut script = Script::read(&[2, 1, 2, 0, 0, 1, 1, 1, 1, 5, 0, 0])?;
/// let fresh = Script::read(&[1, 1, 1, 0, 0, 0])?;
/// assert_ne!(script, fresh);
/// script.read_again(&[1, 1, 1, 0, 0, 0])?;
/// assert_eq!(script, fresh);
/// # Ok::<(), Refused>(())
/// ```
impl PartialEq for Script {
    fn eq(&self, other: &Self) -> bool {
        let (a, b) = (self.arrays(), other.arrays());
        let counts = |a: &Arrays| (a.nodes, a.commands, a.blocks, a.compiles);
        if counts(a) != counts(b) {
            return false;
        }
        match (self.view(), other.view()) {
            (Ok(mine), Ok(theirs)) => {
                mine.eq(theirs) && a.births[..self.blocks()] == b.births[..self.blocks()]
            }
            (Err(_), Err(_)) => a == b,
            _ => false,
        }
    }
}

impl Eq for Script {}
