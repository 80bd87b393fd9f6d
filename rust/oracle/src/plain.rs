//! Document 01's records and trees as plain Rust types.

/// The number of slots in a shop.
pub const SLOTS: usize = 20;
/// The most entries that a slot may be given, and the most requirements parsing may leave in one.
pub const ENTRIES: usize = 14;

/// The id sheet: which items and attachments exist and which items are the timers.
#[derive(Debug, Clone, PartialEq, Eq)]
pub struct Sheet {
    /// For each item its attachment, if it has one.
    pub atc_of: Vec<Option<u16>>,
    /// How many attachments there are.
    pub atcs: u16,
    /// Timer5, Timer10 and Timer15.
    pub timers: [u16; 3],
}

impl Sheet {
    /// How many items there are.
    pub fn items(&self) -> usize {
        self.atc_of.len()
    }
}

/// A requirement; the order is by kind, then by number.
#[derive(Debug, Copy, Clone, PartialEq, Eq, PartialOrd, Ord)]
pub enum Requirement {
    HaveItem(u16),
    MissingItem(u16),
    HaveAtc(u16),
    MissingAtc(u16),
    HaveFlag(i32),
    MissingFlag(i32),
}

impl Requirement {
    /// The kind's place in the sorting order, and the number.
    pub fn parts(self) -> (u8, i32) {
        match self {
            Self::HaveItem(n) => (0, n.into()),
            Self::MissingItem(n) => (1, n.into()),
            Self::HaveAtc(n) => (2, n.into()),
            Self::MissingAtc(n) => (3, n.into()),
            Self::HaveFlag(n) => (4, n),
            Self::MissingFlag(n) => (5, n),
        }
    }
}

/// A slot. What parsing hands out has its requirements sorted, each once; what compiling is given
/// may have them in any order and repeated.
#[derive(Debug, Clone, Default, PartialEq, Eq)]
pub struct Slot {
    pub item: Option<u16>,
    pub limit: i16,
    pub requirements: Vec<Requirement>,
}

/// The kinds of expression with two operands.
#[derive(Debug, Copy, Clone, PartialEq, Eq)]
pub enum Binary {
    Equal,
    NotEqual,
    Less,
    LessEqual,
    Greater,
    GreaterEqual,
    Add,
    Subtract,
    BitAnd,
    BitOr,
}

/// The kinds of expression with one operand.
#[derive(Debug, Copy, Clone, PartialEq, Eq)]
pub enum Unary {
    Not,
    Flag,
    Variable,
    Item,
    Atc,
    Time,
}

/// An expression, its kinds grouped by how many operands they have.
#[derive(Debug, Clone, PartialEq, Eq)]
pub enum Expr {
    Binary(Binary, Box<Expr>, Box<Expr>),
    Unary(Unary, Box<Expr>),
    Imm16(i16),
    Imm32(i32),
    Other,
}

impl Expr {
    /// An expression with two operands.
    pub fn binary(kind: Binary, left: Expr, right: Expr) -> Self {
        Self::Binary(kind, left.into(), right.into())
    }

    /// An expression with one operand.
    pub fn unary(kind: Unary, operand: Expr) -> Self {
        Self::Unary(kind, operand.into())
    }
}

/// What a Set writes to.
#[derive(Debug, Clone, PartialEq, Eq)]
pub enum Target {
    Variable(Expr),
    Other,
}

/// A command; blocks are named by number.
#[derive(Debug, Clone, PartialEq, Eq)]
pub enum Command {
    Return,
    Goto(usize),
    Set(Target, Expr),
    If(Expr, usize),
    EndIf(usize),
    Other,
}

/// A block.
#[derive(Debug, Clone, PartialEq, Eq)]
pub enum Block {
    Placeholder,
    Data,
    Code(Code),
}

/// What a code block holds.
#[derive(Debug, Clone, Default, PartialEq, Eq)]
pub struct Code {
    pub commands: Vec<Command>,
    pub next: Option<usize>,
    /// The else block; `else` is a word of the language.
    pub else_block: Option<usize>,
}

/// A script.
#[derive(Debug, Clone, Default, PartialEq, Eq)]
pub struct Script {
    pub blocks: Vec<Block>,
}
