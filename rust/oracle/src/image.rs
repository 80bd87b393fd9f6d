//! Document 01's image of a script: its writer, and its reader with refusals 2 to 5.

use crate::plain::{Binary, Block, Code, Command, Expr, Script, Target, Unary};

/// A refusal, by its number in document 01.
#[derive(Debug, Copy, Clone, PartialEq, Eq)]
pub struct Refusal(pub u8);

/// The limits of a script.
pub const BLOCKS: usize = 4_096;
pub const COMMANDS: usize = 16_384;
pub const NODES: usize = 32_768;
pub const DEPTH: usize = 64;

/// What stands at each code of an expression.
#[derive(Copy, Clone)]
enum Kind {
    Binary(Binary),
    Unary(Unary),
    Imm16,
    Imm32,
    Other,
}

/// The kinds in the order of their codes.
const KINDS: [Kind; 19] = [
    Kind::Binary(Binary::Equal),
    Kind::Binary(Binary::NotEqual),
    Kind::Binary(Binary::Less),
    Kind::Binary(Binary::LessEqual),
    Kind::Binary(Binary::Greater),
    Kind::Binary(Binary::GreaterEqual),
    Kind::Unary(Unary::Not),
    Kind::Binary(Binary::Add),
    Kind::Binary(Binary::Subtract),
    Kind::Binary(Binary::BitAnd),
    Kind::Binary(Binary::BitOr),
    Kind::Imm16,
    Kind::Imm32,
    Kind::Unary(Unary::Flag),
    Kind::Unary(Unary::Variable),
    Kind::Unary(Unary::Item),
    Kind::Unary(Unary::Atc),
    Kind::Unary(Unary::Time),
    Kind::Other,
];

/// Writes a number in groups of seven bits, low group first.
pub fn put_number(out: &mut Vec<u8>, mut number: u32) {
    while number >= 0x80 {
        out.push(number as u8 | 0x80);
        number >>= 7;
    }
    out.push(number as u8);
}

/// Writes a signed number.
pub fn put_signed(out: &mut Vec<u8>, number: i32) {
    put_number(out, ((number << 1) ^ (number >> 31)) as u32);
}

fn put_size(out: &mut Vec<u8>, size: usize) {
    put_number(
        out,
        u32::try_from(size).expect("sizes and block numbers fit 32 bits"),
    );
}

/// The image of a script.
pub fn write(script: &Script) -> Vec<u8> {
    let mut out = Vec::new();
    put_size(&mut out, script.blocks.len());
    for block in &script.blocks {
        match block {
            Block::Placeholder => out.push(0),
            Block::Data => out.push(2),
            Block::Code(code) => put_code(&mut out, code),
        }
    }
    out
}

fn put_code(out: &mut Vec<u8>, code: &Code) {
    out.push(1);
    put_size(out, code.commands.len());
    for command in &code.commands {
        put_command(out, command);
    }
    put_size(out, code.next.map_or(0, |k| k + 1));
    put_size(out, code.else_block.map_or(0, |k| k + 1));
}

fn put_command(out: &mut Vec<u8>, command: &Command) {
    match command {
        Command::Return => out.push(0),
        Command::Goto(block) => {
            out.push(1);
            put_size(out, *block);
        }
        Command::Set(target, value) => {
            out.push(2);
            match target {
                Target::Variable(expr) => {
                    out.push(0);
                    put_expr(out, expr);
                }
                Target::Other => out.push(1),
            }
            put_expr(out, value);
        }
        Command::If(condition, block) => {
            out.push(3);
            put_expr(out, condition);
            put_size(out, *block);
        }
        Command::EndIf(block) => {
            out.push(4);
            put_size(out, *block);
        }
        Command::Other => out.push(5),
    }
}

fn put_expr(out: &mut Vec<u8>, expr: &Expr) {
    let code = KINDS.iter().position(|kind| match (kind, expr) {
        (Kind::Binary(k), Expr::Binary(kind, ..)) => k == kind,
        (Kind::Unary(k), Expr::Unary(kind, _)) => k == kind,
        (Kind::Imm16, Expr::Imm16(_)) => true,
        (Kind::Imm32, Expr::Imm32(_)) => true,
        (Kind::Other, Expr::Other) => true,
        _ => false,
    });
    out.push(code.expect("every kind has a code") as u8);
    match expr {
        Expr::Binary(_, left, right) => {
            put_expr(out, left);
            put_expr(out, right);
        }
        Expr::Unary(_, operand) => put_expr(out, operand),
        Expr::Imm16(n) => put_signed(out, (*n).into()),
        Expr::Imm32(n) => put_signed(out, *n),
        Expr::Other => (),
    }
}

/// Reads document 01's bytes from the front.
pub struct Reader<'b> {
    rest: &'b [u8],
    /// The declared count of blocks, which block numbers are held against.
    blocks: usize,
    /// The running counts.
    commands: usize,
    nodes: usize,
}

impl<'b> Reader<'b> {
    pub fn new(bytes: &'b [u8]) -> Self {
        Self {
            rest: bytes,
            blocks: 0,
            commands: 0,
            nodes: 0,
        }
    }

    /// Reads a number; one cut short, not shortest or too wide is refused.
    pub fn number(&mut self) -> Result<u32, Refusal> {
        let mut value = 0u64;
        for shift in (0..35).step_by(7) {
            let (&byte, rest) = self.rest.split_first().ok_or(Refusal(2))?;
            self.rest = rest;
            value |= u64::from(byte & 0x7F) << shift;
            if byte & 0x80 == 0 {
                if byte == 0 && shift > 0 {
                    return Err(Refusal(2));
                }
                return u32::try_from(value).map_err(|_| Refusal(2));
            }
        }
        Err(Refusal(2))
    }

    /// Reads a code below `codes`.
    fn code(&mut self, codes: u32) -> Result<usize, Refusal> {
        let code = self.number()?;
        if code < codes {
            Ok(code as usize)
        } else {
            Err(Refusal(2))
        }
    }

    /// Reads a signed number.
    pub fn signed(&mut self) -> Result<i32, Refusal> {
        let number = self.number()?;
        Ok((number >> 1) as i32 ^ -((number & 1) as i32))
    }

    /// Whether all bytes were read.
    pub fn is_done(&self) -> bool {
        self.rest.is_empty()
    }

    /// Reads a script; bytes left over are refused.
    pub fn script(&mut self) -> Result<Script, Refusal> {
        self.blocks = self.number()? as usize;
        if self.blocks > BLOCKS {
            return Err(Refusal(3));
        }
        let mut blocks = Vec::with_capacity(self.blocks);
        for _ in 0..self.blocks {
            blocks.push(match self.code(3)? {
                0 => Block::Placeholder,
                1 => Block::Code(self.code_block()?),
                _ => Block::Data,
            });
        }
        if self.is_done() {
            Ok(Script { blocks })
        } else {
            Err(Refusal(2))
        }
    }

    fn code_block(&mut self) -> Result<Code, Refusal> {
        let count = self.number()? as usize;
        self.commands += count;
        if self.commands > COMMANDS {
            return Err(Refusal(3));
        }
        let commands = (0..count)
            .map(|_| self.command())
            .collect::<Result<_, _>>()?;
        Ok(Code {
            commands,
            next: self.link()?,
            else_block: self.link()?,
        })
    }

    /// Holds a block number against the declared count.
    fn judged(&self, block: usize) -> Result<usize, Refusal> {
        if block < self.blocks {
            Ok(block)
        } else {
            Err(Refusal(5))
        }
    }

    fn block(&mut self) -> Result<usize, Refusal> {
        let block = self.number()? as usize;
        self.judged(block)
    }

    fn link(&mut self) -> Result<Option<usize>, Refusal> {
        match self.number()? as usize {
            0 => Ok(None),
            k => self.judged(k - 1).map(Some),
        }
    }

    fn command(&mut self) -> Result<Command, Refusal> {
        Ok(match self.code(6)? {
            0 => Command::Return,
            1 => Command::Goto(self.block()?),
            2 => {
                let target = match self.code(2)? {
                    0 => Target::Variable(self.expr(1)?),
                    _ => Target::Other,
                };
                Command::Set(target, self.expr(1)?)
            }
            3 => Command::If(self.expr(1)?, self.block()?),
            4 => Command::EndIf(self.block()?),
            _ => Command::Other,
        })
    }

    /// Reads an expression whose top is at `depth`. An unknown code comes before the node count,
    /// and that before the depth.
    fn expr(&mut self, depth: usize) -> Result<Expr, Refusal> {
        let kind = KINDS[self.code(19)?];
        self.nodes += 1;
        if self.nodes > NODES {
            return Err(Refusal(3));
        }
        if depth > DEPTH {
            return Err(Refusal(4));
        }
        Ok(match kind {
            Kind::Binary(kind) => Expr::binary(kind, self.expr(depth + 1)?, self.expr(depth + 1)?),
            Kind::Unary(kind) => Expr::unary(kind, self.expr(depth + 1)?),
            Kind::Imm16 => Expr::Imm16(i16::try_from(self.signed()?).map_err(|_| Refusal(2))?),
            Kind::Imm32 => Expr::Imm32(self.signed()?),
            Kind::Other => Expr::Other,
        })
    }
}

/// Reads the image of a script.
pub fn read(bytes: &[u8]) -> Result<Script, Refusal> {
    Reader::new(bytes).script()
}
