//! The scripts, shops and saves that are timed.

use locustkeno::{Save, Script};
use oracle::image;
use oracle::plain::{
    self, Binary, Block, Code, Command, Expr, Requirement, Sheet, Slot, Target, Unary,
};
use oracle::rules::InUse;

/// One script with the shop that stands in it.
pub struct Case {
    pub name: &'static str,
    pub sheet: Sheet,
    pub slots: Vec<Slot>,
    pub plain: plain::Script,
    pub bytes: Vec<u8>,
    pub script: Script,
}

/// Thirty items; item 29 has the only attachment, items 0, 1 and 2 are the timers.
fn sheet() -> Sheet {
    let mut atc_of = vec![None; 30];
    atc_of[29] = Some(0);
    Sheet {
        atc_of,
        atcs: 1,
        timers: [0, 1, 2],
    }
}

/// Twenty slots of every shape: timers, an attachment, limits of 1 and above, zero to three
/// requirements.
fn shop() -> Vec<Slot> {
    let all = [
        Requirement::HaveFlag(40),
        Requirement::MissingItem(7),
        Requirement::HaveAtc(0),
    ];
    (0..20u16)
        .map(|i| Slot {
            item: Some(if i == 19 { 29 } else { i }),
            limit: (i % 5 + 1) as i16,
            requirements: all[..usize::from(i) % 4].to_vec(),
        })
        .collect()
}

/// A script in which the shop was compiled so many times, at block 0.
fn compiled(name: &'static str, times: usize) -> Case {
    let (sheet, slots) = (sheet(), shop());
    let first = Block::Code(Code::default());
    let mut in_use = InUse::new(plain::Script {
        blocks: vec![first],
    });
    for _ in 0..times {
        in_use
            .compile(&sheet, 0, &slots)
            .expect("the script has room");
    }
    let bytes = image::write(&in_use.script);
    let script = Script::read(&bytes).expect("what the original makes is a script");
    Case {
        name,
        sheet,
        slots,
        plain: in_use.script,
        bytes,
        script,
    }
}

/// A script of one empty block, then with one shop, with ten, and with all but one of those that it has room for.
pub fn all() -> [Case; 4] {
    [
        compiled("one block", 0),
        compiled("one shop", 1),
        compiled("ten shops", 10),
        compiled("43 shops", 43),
    ]
}

/// Two blocks that follow each other for ever: a counter, a test of a flag and of what is left of an
/// item, and writes to a slot.
pub fn endless() -> (Sheet, plain::Script) {
    let read = |kind, number| Expr::unary(kind, Expr::Imm16(number));
    let set = |variable, value| Command::Set(Target::Variable(Expr::Imm16(variable)), value);
    let one_more = Expr::binary(Binary::Add, read(Unary::Variable, 1), Expr::Imm16(1));
    let left = Expr::binary(Binary::Subtract, Expr::Imm16(3), read(Unary::Item, 4));
    let some = Expr::binary(Binary::Greater, read(Unary::Variable, 0), Expr::Imm16(0));
    let both = Expr::binary(Binary::BitAnd, read(Unary::Flag, 40), some);
    let block = |commands, next| {
        Block::Code(Code {
            commands,
            next: Some(next),
            else_block: None,
        })
    };
    let first = vec![set(1, one_more), set(0, left), Command::If(both, 1)];
    let second = vec![
        set(600, Expr::Imm16(4)),
        set(620, read(Unary::Variable, 0)),
        Command::EndIf(0),
    ];
    let blocks = vec![block(first, 1), block(second, 0)];
    (sheet(), plain::Script { blocks })
}

/// A save in which some of everything is held.
pub fn save(sheet: &Sheet) -> Save {
    Save {
        items: (0..sheet.items()).map(|i| (i % 3) as i16).collect(),
        atcs: vec![0; sheet.atcs.into()],
        flags: vec![1; locustkeno::FLAGS],
        times: vec![0; locustkeno::TIMES],
        variables: vec![0; locustkeno::VARIABLES],
    }
}
