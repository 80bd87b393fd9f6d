//! Every script of two small blocks, by number.

use oracle::plain::{Binary, Block, Code, Command, Expr, Script, Sheet, Target, Unary};

/// Both blocks name each other, themselves or nothing.
const BLOCKS: usize = 2;
const LINKS: usize = BLOCKS + 1;

/// Four items, of which item 3 has the only attachment; items 0, 1 and 2 are the timers.
pub fn sheet() -> Sheet {
    Sheet {
        atc_of: vec![None, None, None, Some(0)],
        atcs: 1,
        timers: [0, 1, 2],
    }
}

fn set(variable: i16, value: Expr) -> Command {
    Command::Set(Target::Variable(Expr::Imm16(variable)), value)
}

fn read(kind: Unary, number: i16) -> Expr {
    Expr::unary(kind, Expr::Imm16(number))
}

/// The commands that a block may have.
fn commands() -> Vec<Command> {
    let flag = || read(Unary::Flag, 1);
    let both = Expr::binary(
        Binary::BitAnd,
        flag(),
        Expr::unary(Unary::Not, read(Unary::Item, 3)),
    );
    let left = Expr::binary(Binary::Subtract, Expr::Imm16(3), read(Unary::Item, 3));
    vec![
        Command::Return,
        Command::Goto(1),
        Command::EndIf(0),
        set(600, Expr::Imm16(-1)),
        set(600, Expr::Imm16(3)),
        set(620, Expr::Imm16(0)),
        set(620, Expr::Imm32(65_537)),
        set(620, read(Unary::Variable, 0)),
        set(0, left),
        Command::If(flag(), 1),
        Command::If(both, 0),
        Command::Other,
    ]
}

/// Takes the choices of a script out of its number, one after the other.
struct Choices(usize);

impl Choices {
    fn of(&mut self, count: usize) -> usize {
        let choice = self.0 % count;
        self.0 /= count;
        choice
    }

    fn link(&mut self) -> Option<usize> {
        self.of(LINKS).checked_sub(1)
    }

    /// No command, one or two.
    fn commands(&mut self, all: &[Command]) -> Vec<Command> {
        let choice = self.of(1 + all.len() + all.len() * all.len());
        match choice.checked_sub(1) {
            None => vec![],
            Some(one) if one < all.len() => vec![all[one].clone()],
            Some(two) => {
                let two = two - all.len();
                vec![all[two / all.len()].clone(), all[two % all.len()].clone()]
            }
        }
    }

    /// A code block, by nine links each, or one of the other two kinds.
    fn block(&mut self, all: &[Command]) -> Block {
        match self.of(block_choices(all)) {
            0 => Block::Placeholder,
            1 => Block::Data,
            choice => {
                let mut inner = Choices(choice - 2);
                Block::Code(Code {
                    next: inner.link(),
                    else_block: inner.link(),
                    commands: inner.commands(all),
                })
            }
        }
    }
}

fn block_choices(all: &[Command]) -> usize {
    2 + LINKS * LINKS * (1 + all.len() + all.len() * all.len())
}

/// All of them.
pub fn scripts() -> impl Iterator<Item = Script> {
    let all = commands();
    let count = block_choices(&all).pow(BLOCKS as u32);
    (0..count).map(move |number| {
        let mut choices = Choices(number);
        Script {
            blocks: (0..BLOCKS).map(|_| choices.block(&all)).collect(),
        }
    })
}
