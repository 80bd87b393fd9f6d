//! Cases at the limits of script and input, which are large and so have files of their own.

use crate::compile_cases::{Case, answered};
use oracle::image::{BLOCKS, COMMANDS, DEPTH, NODES};
use oracle::plain::{Block, Code, Command, Expr, Requirement, Script, Sheet, Slot, Target, Unary};
use oracle::rules;
use oracle::slots::{self, INPUT, Input};

fn sheet() -> Sheet {
    Sheet {
        atc_of: vec![None, None, None, Some(0)],
        atcs: 1,
        timers: [0, 1, 2],
    }
}

fn input(blocks: Vec<Block>) -> Vec<u8> {
    slots::write(&Input {
        sheet: sheet(),
        setup: 0,
        script: Script { blocks },
    })
}

fn code(commands: Vec<Command>) -> Block {
    Block::Code(Code {
        commands,
        ..Code::default()
    })
}

/// A setup block and placeholders, `count` blocks in all.
fn blocks(count: usize) -> Vec<Block> {
    let mut blocks = vec![Block::Placeholder; count];
    blocks[0] = code(Vec::new());
    blocks
}

/// A block of `count` commands.
fn commands(count: usize) -> Vec<Block> {
    vec![code(vec![Command::Other; count])]
}

/// A command whose expression is `depth` nodes in a row.
fn row(depth: usize) -> Command {
    let mut expr = Expr::Other;
    for _ in 1..depth {
        expr = Expr::unary(Unary::Not, expr);
    }
    Command::Set(Target::Other, expr)
}

/// A block whose expressions have `count` nodes.
fn nodes(count: usize) -> Vec<Block> {
    let mut rows = vec![row(DEPTH); count / DEPTH];
    if !count.is_multiple_of(DEPTH) {
        rows.push(row(count % DEPTH));
    }
    vec![code(rows)]
}

/// As many nodes as a script may have, and the next one deeper than it may be: 3 comes before 4.
fn too_many_and_too_deep() -> Vec<Block> {
    let mut rows = vec![row(DEPTH); NODES / DEPTH - 1];
    rows.push(row(DEPTH + 1));
    vec![code(rows)]
}

/// All blocks in one chain that ends in a slot's two writes.
fn chain() -> Vec<Block> {
    let link = |k| {
        Block::Code(Code {
            next: Some(k + 1),
            ..Code::default()
        })
    };
    let mut blocks: Vec<Block> = (0..BLOCKS - 1).map(link).collect();
    let set =
        |variable, value| Command::Set(Target::Variable(Expr::Imm16(variable)), Expr::Imm16(value));
    blocks.push(code(vec![set(600, 3), set(620, 4)]));
    blocks
}

/// Where the image begins in each of the inputs below: behind the sheet and a setup number of one byte.
pub fn image_start() -> usize {
    let mut head = Vec::new();
    slots::put_sheet(&mut head, &sheet());
    head.len() + 1
}

/// Inputs of `slots` at and just past each limit.
pub fn parse_inputs() -> Vec<Vec<u8>> {
    let mut inputs = vec![
        input(blocks(BLOCKS)),
        input(blocks(BLOCKS + 1)),
        input(commands(COMMANDS)),
        input(commands(COMMANDS + 1)),
        input(nodes(NODES)),
        input(nodes(NODES + 1)),
        input(too_many_and_too_deep()),
        input(chain()),
    ];
    // An unknown code where one node more would pass the limit: 2 comes before 3.
    let mut unknown = input(nodes(NODES + 1));
    let last = unknown.len() - 3;
    unknown[last] = 19;
    inputs.push(unknown);
    // Zeros behind a whole image: left over, and then too long before all else.
    for length in [INPUT, INPUT + 1] {
        let mut bytes = input(blocks(1));
        bytes.resize(length, 0);
        inputs.push(bytes);
    }
    inputs
}

/// A shop with a slot of every shape.
fn shop() -> Vec<Slot> {
    let slot = |item, limit, requirements: &[Requirement]| Slot {
        item: Some(item),
        limit,
        requirements: requirements.to_vec(),
    };
    let flag = [Requirement::HaveFlag(70_000)];
    vec![
        slot(0, 1, &flag),
        slot(1, 1, &[]),
        slot(3, 9, &flag),
        slot(2, 0, &flag),
    ]
}

/// Scripts that one or two compiles of the shop fill to so many blocks or commands, or to one more.
fn filled(most_blocks: usize, most_commands: usize, past: usize) -> Vec<(Vec<Block>, usize)> {
    let added = rules::added(&sheet(), &shop());
    vec![
        (blocks(most_blocks - added.blocks + past), 1),
        (commands(most_commands - added.commands + past), 1),
        (commands(most_commands - 2 * added.commands + past), 2),
    ]
}

/// A list of so many compiles of the shop at block 0.
fn at_block_0((blocks, compiles): (Vec<Block>, usize)) -> Case {
    let calls = vec![(0, shop()); compiles];
    answered(sheet(), Script { blocks }, calls)
}

/// Compiles that just fit and that just do not, for each of the three counts; and lists in which
/// what the emptied setup block held decides.
pub fn compile_cases() -> Vec<Case> {
    let added = rules::added(&sheet(), &shop());
    let mut cases = Vec::new();
    for past in [0, 1] {
        cases.extend(filled(BLOCKS, COMMANDS, past).into_iter().map(at_block_0));
        cases.push(at_block_0((nodes(NODES - added.nodes + past), 1)));
        cases.push(at_block_0((nodes(NODES - 2 * added.nodes + past), 2)));
    }
    cases
}

/// The same for other limits of blocks and commands.
pub fn filled_cases(most_blocks: usize, most_commands: usize) -> Vec<Case> {
    let scripts = [0, 1].map(|past| filled(most_blocks, most_commands, past));
    scripts.into_iter().flatten().map(at_block_0).collect()
}
