//! What a shop means for a save, from document 01's words, and where its run is stopped (02, A.10).

use locustkeno::{NUM_SLOTS, Save};
use oracle::plain::{Requirement, Sheet, Slot};
use std::iter;

/// The rates of Timer5, Timer10 and Timer15.
const RATES: [i16; 3] = [200, 100, 67];

/// 23 or 0, the pair of each slot that is come to, and what variable 0 ends as.
#[derive(Debug, Clone, PartialEq, Eq)]
pub struct Meaning {
    pub answer: u8,
    pub pairs: Vec<(i32, i32)>,
    pub variable0: i32,
}

/// Whether a slot asks about a flag that no save has. One without an item asks about none.
fn strays(slot: &Slot) -> bool {
    slot.item.is_some()
        && slot.requirements.iter().any(|r| match *r {
            Requirement::HaveFlag(n) | Requirement::MissingFlag(n) => !(0..2_048).contains(&n),
            _ => false,
        })
}

fn met(save: &Save, requirement: &Requirement) -> bool {
    let item = |n: u16| save.items[usize::from(n)] != 0;
    let atc = |n: u16| save.atcs[usize::from(n)] != 0;
    let flag =
        |n: i32| usize::try_from(n).is_ok_and(|n| save.flags.get(n).is_some_and(|f| *f != 0));
    match *requirement {
        Requirement::HaveItem(n) => item(n),
        Requirement::MissingItem(n) => !item(n),
        Requirement::HaveAtc(n) => atc(n),
        Requirement::MissingAtc(n) => !atc(n),
        Requirement::HaveFlag(n) => flag(n),
        Requirement::MissingFlag(n) => !flag(n),
    }
}

/// The limit as coerced.
pub fn limit(sheet: &Sheet, item: u16, limit: i16) -> i32 {
    let single = sheet.atc_of[usize::from(item)].is_some() || sheet.timers.contains(&item);
    if single { 1 } else { limit.clamp(1, 10).into() }
}

fn acquired(sheet: &Sheet, item: u16, save: &Save) -> bool {
    let held = match sheet.atc_of[usize::from(item)] {
        Some(atc) => save.atcs[usize::from(atc)] != 0,
        None => save.items[usize::from(item)] != 0,
    };
    let timer = sheet.timers.iter().position(|t| *t == item);
    held || timer.is_some_and(|t| save.times[2] == RATES[t])
}

/// The pair of a slot at limit 1.
fn single(sheet: &Sheet, item: u16, visible: bool, save: &Save) -> (i32, i32) {
    let acquired = acquired(sheet, item, save);
    if !acquired && visible {
        let [five, ten, fifteen] = sheet.timers;
        let held = |timer: u16| save.items[usize::from(timer)] > 0;
        let waits = item == five && !held(ten) && !held(fifteen);
        return (item.into(), (!waits).into());
    }
    if acquired { (item.into(), 0) } else { (-1, 0) }
}

/// What a shop means, up to the first slot that stops the run; slots past the twentieth are dropped, missing ones are empty.
pub fn meaning(sheet: &Sheet, slots: &[Slot], save: &Save) -> Meaning {
    let mut meaning = Meaning {
        answer: 0,
        pairs: Vec::new(),
        variable0: save.variables[0],
    };
    let empty = Slot::default();
    for slot in slots.iter().chain(iter::repeat(&empty)).take(NUM_SLOTS) {
        if strays(slot) {
            meaning.answer = 23;
            break;
        }
        let pair = pair(sheet, slot, save, &mut meaning.variable0);
        meaning.pairs.push(pair);
    }
    meaning
}

/// The pair of a slot, and variable 0 after it.
fn pair(sheet: &Sheet, slot: &Slot, save: &Save, variable0: &mut i32) -> (i32, i32) {
    let Some(item) = slot.item else {
        return (-1, 0);
    };
    let visible = slot.requirements.iter().all(|r| met(save, r));
    let limit = limit(sheet, item, slot.limit);
    if limit == 1 {
        return single(sheet, item, visible, save);
    }
    if !visible {
        return (-1, 0);
    }
    let left = (limit - i32::from(save.items[usize::from(item)])).max(0);
    *variable0 = left;
    (item.into(), left)
}
