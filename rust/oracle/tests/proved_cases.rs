//! Document 01's proved cases P1 to P10 and its worked input, on the original.

mod paper;
mod runner;

use oracle::calls;
use oracle::image::{self, Refusal};
use oracle::plain::{Binary, Block, Code, Command, Expr, Requirement, Script, Slot, Target, Unary};
use oracle::rules::{Counts, InUse};
use paper::{bytes, one_return, only_first, printed, sheet, slot};
use runner::{Save, run};

/// The code of a block.
fn code(script: &Script, block: usize) -> &Code {
    match &script.blocks[block] {
        Block::Code(code) => code,
        other => panic!("block {block} is {other:?}"),
    }
}

fn imm(n: i16) -> Expr {
    Expr::Imm16(n)
}

fn of(kind: Unary, n: i16) -> Expr {
    Expr::unary(kind, imm(n))
}

fn two(kind: Binary, left: Expr, right: Expr) -> Expr {
    Expr::binary(kind, left, right)
}

fn set(variable: i16, value: Expr) -> Command {
    Command::Set(Target::Variable(imm(variable)), value)
}

/// The shop of P1 to P3, compiled at block 0 of a script of one Return block.
fn p1() -> Script {
    let mut script = one_return();
    let shop = [slot(7, 3, &[Requirement::MissingFlag(40)])];
    calls::compile(&sheet(), &mut script, 0, &shop).unwrap();
    script
}

#[test]
fn p1_root_is_block_25() {
    let script = p1();
    assert_eq!(script.blocks.len(), 26);
    assert_eq!(
        *code(&script, 0),
        Code {
            next: Some(25),
            ..Code::default()
        }
    );
    assert_eq!(
        *code(&script, 1),
        Code {
            commands: vec![Command::Return],
            ..Code::default()
        }
    );
    let hide = |i: i16| vec![set(600 + i, imm(-1)), set(620 + i, imm(0))];
    for block in 2..=21 {
        let expected = Code {
            commands: hide(21 - block as i16),
            next: Some(block - 1),
            else_block: None,
        };
        assert_eq!(*code(&script, block), expected);
    }
}

#[test]
fn p1_the_blocks_of_its_slot() {
    let script = p1();
    let var0 = of(Unary::Variable, 0);
    let left = two(Binary::Subtract, imm(3), of(Unary::Item, 7));
    let slot_blocks = [
        (
            vec![set(600, imm(7)), set(620, var0.clone()), Command::EndIf(20)],
            20,
            None,
        ),
        (vec![set(0, imm(0))], 22, None),
        (
            vec![
                set(0, left),
                Command::If(two(Binary::Less, var0, imm(0)), 22),
            ],
            23,
            Some(22),
        ),
        (
            vec![Command::If(
                Expr::unary(Unary::Not, of(Unary::Flag, 40)),
                21,
            )],
            24,
            Some(21),
        ),
    ];
    for (block, (commands, next, else_block)) in (22..).zip(slot_blocks) {
        assert_eq!(
            *code(&script, block),
            Code {
                commands,
                next: Some(next),
                else_block
            }
        );
    }
}

#[test]
fn p1_to_p3_runs() {
    let script = p1();
    for (held, flag, pair, entered) in [(1, 0, (7, 2), 24), (5, 0, (7, 0), 25), (1, 1, (-1, 0), 23)]
    {
        let mut save = Save::new(&sheet());
        save.items[7] = held;
        save.flags[40] = flag;
        assert_eq!(run(&script, &mut save, 0, 82), (Ok(()), entered));
        assert_eq!(save.pair(0), pair);
    }
}

#[test]
fn p4_limits_are_coerced() {
    for (item, limit, coerced) in [(7, 0, 1), (7, 10, 10), (7, 11, 10), (0, 5, 1)] {
        let mut script = one_return();
        calls::compile(&sheet(), &mut script, 0, &[slot(item, limit, &[])]).unwrap();
        let read = calls::parse(&sheet(), &script, 0).unwrap();
        assert_eq!(read[0], slot(item, coerced, &[]));
    }
}

#[test]
fn p5_the_acquired_test_is_lost_at_limit_1() {
    let both = [Requirement::HaveItem(7), Requirement::HaveFlag(9)];
    for (limit, kept) in [(1, &both[1..]), (3, &both[..])] {
        let mut script = one_return();
        calls::compile(&sheet(), &mut script, 0, &[slot(7, limit, &both)]).unwrap();
        let read = calls::parse(&sheet(), &script, 0).unwrap();
        assert_eq!(read[0], slot(7, limit, kept));
    }
}

/// A script of one block with these commands.
fn one_block(commands: Vec<Command>) -> Script {
    Script {
        blocks: vec![Block::Code(Code {
            commands,
            ..Code::default()
        })],
    }
}

#[test]
fn p6_a_written_count_is_cut() {
    let script = one_block(vec![set(600, imm(7)), set(620, Expr::Imm32(65_537))]);
    assert_eq!(
        calls::parse(&sheet(), &script, 0).unwrap()[0],
        slot(7, 1, &[])
    );
}

#[test]
fn p7_no_count_no_update() {
    let hide = Code {
        commands: vec![set(600, imm(-1))],
        ..Code::default()
    };
    let test = Code {
        commands: vec![Command::If(of(Unary::Flag, 3), 1)],
        next: Some(1),
        else_block: None,
    };
    let script = Script {
        blocks: vec![Block::Code(test), Block::Code(hide)],
    };
    assert_eq!(
        calls::parse(&sheet(), &script, 0).unwrap(),
        vec![Slot::default(); 20]
    );
}

#[test]
fn p8_timer5_needs_another_timer() {
    let mut script = one_return();
    calls::compile(&sheet(), &mut script, 0, &[slot(1, 1, &[])]).unwrap();
    for (timer10, count) in [(0, 0), (1, 1)] {
        let mut save = Save::new(&sheet());
        save.items[2] = timer10;
        assert_eq!(run(&script, &mut save, 0, 82).0, Ok(()));
        assert_eq!(save.pair(0), (1, count));
    }
}

#[test]
fn p9_numbers_are_shortest() {
    let mut out = Vec::new();
    image::put_signed(&mut out, 600);
    assert_eq!(out, bytes("B0 09"));
    let image = |number: &str| bytes(&format!("01 01 01 02 00 0B {number} 12 00 00"));
    assert!(image::read(&image("B0 09")).is_ok());
    assert_eq!(image::read(&image("B0 89 00")), Err(Refusal(2)));
}

#[test]
fn p10_an_empty_shop_adds_21_blocks() {
    let mut script = one_return();
    calls::compile(&sheet(), &mut script, 0, &[]).unwrap();
    let added = Counts::of(&script.blocks[1..]);
    assert_eq!(
        added,
        Counts {
            blocks: 21,
            commands: 41,
            nodes: 80
        }
    );
    for (blocks, answer) in [(4_075, Ok(())), (4_076, Err(Refusal(9)))] {
        let mut script = one_return();
        script.blocks.resize(blocks, Block::Placeholder);
        assert_eq!(InUse::new(script).compile(&sheet(), 0, &[]), answer);
    }
}

#[test]
fn the_worked_input_of_slots() {
    let input = bytes(
        "04 01 00 00 00 01 00 01 02 00 01 01 03 02 00 0B B0 09 0B 06 02 00 0B D8 09 0B 02 00 00 00",
    );
    assert_eq!(printed(&input), only_first("0 3 1"));
}

#[test]
fn negation_and_constants_are_the_originals() {
    let (flag, time) = (of(Unary::Flag, 1), of(Unary::Time, 2));
    let both = two(
        Binary::BitAnd,
        two(Binary::Less, time.clone(), imm(3)),
        flag.clone(),
    );
    let either = two(
        Binary::BitOr,
        two(Binary::GreaterEqual, time, imm(3)),
        Expr::unary(Unary::Not, flag),
    );
    assert_eq!(calls::negate(&both), either);
    assert_eq!(calls::negate(&either), both);
    assert_eq!(calls::imm(32_767), Expr::Imm16(32_767));
    assert_eq!(calls::imm(-32_769), Expr::Imm32(-32_769));
}

#[test]
fn a_chain_of_all_blocks_is_walked() {
    let link = |k: usize| {
        Block::Code(Code {
            next: Some(k + 1),
            ..Code::default()
        })
    };
    let mut blocks: Vec<Block> = (0..4_095).map(link).collect();
    let last = vec![set(600, imm(7)), set(620, imm(4))];
    blocks.push(Block::Code(Code {
        commands: last,
        ..Code::default()
    }));
    let read = calls::parse(&sheet(), &Script { blocks }, 0).unwrap();
    assert_eq!(read[0], slot(7, 4, &[]));
}

#[test]
fn every_kind_survives_both_conversions() {
    let leaf = || Target::Variable(Expr::Other);
    let kinds = "00 01 02 03 04 05 07 08 09 0A";
    let mut commands = vec![
        Command::Goto(0),
        Command::EndIf(0),
        Command::Other,
        Command::Return,
    ];
    for kind in bytes(kinds) {
        let image = bytes(&format!("01 01 01 03 {kind:02X} 0B 01 0C 02 00 00 00"));
        commands.extend(code(&image::read(&image).unwrap(), 0).commands.clone());
    }
    for kind in [
        Unary::Not,
        Unary::Flag,
        Unary::Variable,
        Unary::Item,
        Unary::Atc,
        Unary::Time,
    ] {
        commands.push(Command::Set(leaf(), of(kind, -5)));
    }
    commands.push(Command::Set(Target::Other, Expr::Imm32(i32::MIN)));
    let mut script = one_block(commands);
    script.blocks.extend([
        Block::Placeholder,
        Block::Data,
        Block::Code(Code::default()),
    ]);
    let before = script.clone();
    assert_eq!(image::read(&image::write(&script)), Ok(before.clone()));
    // Compiling hands the other blocks through the original's types and back.
    calls::compile(&sheet(), &mut script, 3, &[]).unwrap();
    assert_eq!(script.blocks[..3], before.blocks[..3]);
}
