//! A hand-written interpreter of document 01's runner over the same arrays, with the same checks; And and Or are 02's (A.5), and
//! so is a flag outside the save (A.10).

use crate::judge;
use locustkeno::{Arrays, FLAGS, Save, TIMES, VARIABLES};
use oracle::plain::Sheet;

/// A refusal's number, or 0, and how many blocks were entered.
pub type Answer = (u8, u32);

/// Check 1.
pub fn sheet_ok(sheet: &Sheet) -> bool {
    let [five, ten, fifteen] = sheet.timers;
    (3..=512).contains(&sheet.items())
        && sheet.atcs <= 64
        && sheet.atc_of.iter().flatten().all(|atc| *atc < sheet.atcs)
        && sheet.timers.iter().all(|t| usize::from(*t) < sheet.items())
        && five != ten
        && five != fifteen
        && ten != fifteen
}

/// Check 12.
pub fn save_ok(sheet: &Sheet, save: &Save) -> bool {
    save.items.len() == sheet.items()
        && save.items.iter().all(|count| *count >= 0)
        && save.atcs.len() == usize::from(sheet.atcs)
        && save.atcs.iter().all(|bit| *bit < 2)
        && save.flags.len() == FLAGS
        && save.flags.iter().all(|bit| *bit < 2)
        && save.times.len() == TIMES
        && save.variables.len() == VARIABLES
}

/// The call with all its checks.
pub fn run(sheet: &Sheet, a: &Arrays, start: u32, save: &mut Save, budget: u32) -> Answer {
    if !sheet_ok(sheet) {
        return (1, 0);
    }
    if let Err(refusal) = judge::judge(a) {
        return (refusal.0, 0);
    }
    if start >= a.blocks.into() {
        return (6, 0);
    }
    if a.bw[5 * start as usize] != 1 {
        return (7, 0);
    }
    if !save_ok(sheet, save) {
        return (12, 0);
    }
    run_blocks(a, start, save, budget)
}

/// The blocks of a record that was judged.
pub fn run_blocks(a: &Arrays, start: u32, save: &mut Save, budget: u32) -> Answer {
    let mut block = start as usize;
    for entered in 1..=budget {
        match step(a, block, save) {
            Ok(Some(next)) => block = next.into(),
            Ok(None) => return (0, entered),
            Err(refusal) => return (refusal, entered),
        }
    }
    (15, budget)
}

/// Where a block leads; to nowhere after a Return.
pub(crate) fn step(a: &Arrays, block: usize, save: &mut Save) -> Result<Option<u16>, u8> {
    let words = &a.bw[5 * block..][..5];
    if words[0] != 1 {
        return Err(13);
    }
    let first = usize::from(words[1]);
    for at in first..first + usize::from(words[2]) {
        let command = &a.cw[4 * at..][..4];
        match command[0] {
            0 => return Ok(None),
            1 | 4 => return Ok(Some(command[3])),
            2 if command[3] == 0 => set(a, command[1], command[2], save)?,
            3 if value(a, command[1], save)? == 0 => return Ok(Some(command[3])),
            3 => break,
            _ => return Err(13),
        }
    }
    words[3].checked_sub(1).map(Some).ok_or(14)
}

fn set(a: &Arrays, target: u16, source: u16, save: &mut Save) -> Result<(), u8> {
    let target = value(a, target, save)?;
    let source = value(a, source, save)?;
    if let Some(place) = usize::try_from(target)
        .ok()
        .and_then(|i| save.variables.get_mut(i))
    {
        *place = source;
    }
    Ok(())
}

fn at<T: Copy + Into<i32>>(values: &[T], index: i32) -> i32 {
    let place = usize::try_from(index).ok();
    place.and_then(|i| values.get(i)).map_or(0, |v| (*v).into())
}

/// A flag; outside the save there is none to read.
fn flag(save: &Save, number: i32) -> Result<i32, u8> {
    if (0..2_048).contains(&number) {
        Ok(at(&save.flags, number))
    } else {
        Err(23)
    }
}

/// The value of a node.
fn value(a: &Arrays, node: u16, save: &Save) -> Result<i32, u8> {
    let i = usize::from(node);
    let words = &a.ws[3 * i..][..3];
    let left = || value(a, words[1], save);
    Ok(match words[0] {
        11 | 12 => a.val[i],
        6 => (left()? == 0).into(),
        13 => flag(save, left()?)?,
        14 => at(&save.variables, left()?),
        15 => at(&save.items, left()?),
        16 => at(&save.atcs, left()?),
        17 => at(&save.times, left()?),
        18.. => return Err(13),
        code => joined(code, left()?, value(a, words[2], save)?),
    })
}

fn joined(code: u16, l: i32, r: i32) -> i32 {
    match code {
        0 => (l == r).into(),
        1 => (l != r).into(),
        2 => (l < r).into(),
        3 => (l <= r).into(),
        4 => (l > r).into(),
        5 => (l >= r).into(),
        7 => l.wrapping_add(r),
        8 => l.wrapping_sub(r),
        9 => l & r,
        _ => l | r,
    }
}
