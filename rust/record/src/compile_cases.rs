//! Lists of compiles at the blocks of one script.

use crate::make::{self, Maker};
use crate::random::Random;
use oracle::image::Refusal;
use oracle::plain::{Script, Sheet, Slot};
use oracle::rules::InUse;

/// One compile of a list and its answer, 0 where it is accepted.
pub struct Step {
    pub setup: u32,
    pub shop: Vec<Slot>,
    pub answer: u8,
}

/// A list of compiles, with the script before and after it.
pub struct Case {
    pub sheet: Sheet,
    pub before: Script,
    pub steps: Vec<Step>,
    pub after: Script,
}

/// Makes a case of what is to be called.
pub fn answered(sheet: Sheet, before: Script, calls: Vec<(u32, Vec<Slot>)>) -> Case {
    let mut in_use = InUse::new(before.clone());
    let mut steps = Vec::new();
    for (setup, shop) in calls {
        let answer = match in_use.compile(&sheet, setup as usize, &shop) {
            Ok(()) => 0,
            Err(Refusal(number)) => number,
        };
        steps.push(Step {
            setup,
            shop,
            answer,
        });
    }
    Case {
        sheet,
        before,
        steps,
        after: in_use.script,
    }
}

/// One list, mostly of one compile.
pub fn case(random: &mut Random) -> Case {
    let sheet = make::sheet(random);
    let blocks = random.between(1, 4);
    let mut maker = Maker {
        random,
        sheet: sheet.clone(),
        blocks,
    };
    let before = maker.script();
    let count = maker.random.pick(&[0, 1, 1, 1, 1, 1, 2, 2, 3, 4]);
    let calls = (0..count).map(|_| call(&mut maker)).collect();
    answered(sheet, before, calls)
}

/// The block and the shop of one compile.
fn call(maker: &mut Maker) -> (u32, Vec<Slot>) {
    let blocks = maker.blocks as u32;
    let setup = match maker.random.below(16) {
        0 => blocks,
        1 => u32::MAX,
        // A block that an earlier compile of the list may have appended.
        2..=4 => blocks + maker.random.below(40) as u32,
        _ => maker.block() as u32,
    };
    let doubtful = maker.random.once_in(8);
    (
        setup,
        if doubtful {
            maker.doubtful_shop()
        } else {
            maker.shop()
        },
    )
}
