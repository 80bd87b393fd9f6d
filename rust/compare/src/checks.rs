//! What is told of a shop before it is signed: the library's findings against every setting of each slot, one by one. The
//! slot is printed by the original (compiled and read back there), and both sides of it mean what document 01 says.

use crate::meaning::{limit, meaning};
use crate::settings::{Looked, save, slot};
use crate::tally::Tally;
use crate::{convert, interpret};
use locustkeno::{Finding, Found, Shop};
use oracle::plain::{Block, Code, Command, Requirement, Script, Sheet, Slot};
use oracle::rules::{self, InUse};
use record::make;
use record::random::Random;

/// The most subjects for which every setting is taken.
const MOST: usize = 10;

/// Each slot read back by the original.
fn printed(sheet: &Sheet, slots: &[Slot]) -> Result<Vec<Slot>, u8> {
    if !interpret::sheet_ok(sheet) {
        return Err(1);
    }
    rules::check_shop(sheet, slots).map_err(|refusal| refusal.0)?;
    let code = Code {
        commands: vec![Command::Return],
        ..Code::default()
    };
    let blocks = vec![Block::Code(code)];
    let mut script = InUse::new(Script { blocks });
    script
        .compile(sheet, 0, slots)
        .expect("it passed 8 and is small");
    Ok(rules::parse(sheet, &script.script, 0).expect("it was compiled"))
}

/// What 600 and on would get for the slot alone.
fn item(sheet: &Sheet, slot: &Slot, save: &locustkeno::Save) -> i32 {
    meaning(sheet, std::slice::from_ref(slot), save).pairs[0].0
}

/// Whether some setting tells the slot from what is printed, and whether all list it.
fn by_settings(sheet: &Sheet, given: &Slot, read: &Slot, looked: &Looked) -> (bool, bool) {
    let (mut differs, mut always) = (false, true);
    for n in 0..looked.combinations() {
        let save = save(sheet, &looked.answers(n));
        let means = |slot: &Slot| meaning(sheet, std::slice::from_ref(slot), &save);
        differs |= means(given) != means(read);
        always &= item(sheet, given, &save) != -1;
    }
    (differs, always)
}

fn is_negation(a: &Requirement, b: &Requirement) -> bool {
    let ((kind, number), (other, same)) = (a.parts(), b.parts());
    kind ^ 1 == other && number == same
}

/// Where the reason stands, by document 01's normal form: the first entry with its negation, or else the acquired one.
fn reason(sheet: &Sheet, slot: &Slot) -> Option<usize> {
    let entries = &slot.requirements;
    let paired = |r: &Requirement| entries.iter().any(|other| is_negation(r, other));
    let own = match sheet.atc_of[usize::from(slot.item?)] {
        Some(atc) => Requirement::HaveAtc(atc),
        None => Requirement::HaveItem(slot.item?),
    };
    let pair = entries.iter().position(paired);
    pair.or_else(|| entries.iter().position(|r| *r == own))
}

/// The place that a finding names, if what is printed and what runs differ.
fn place(finding: &Finding) -> Option<usize> {
    match finding.what {
        Found::Contradiction { entry, .. } | Found::RequiresItself { entry, .. } => Some(entry),
        _ => None,
    }
}

/// One slot with an item, none of whose flags lies outside.
fn compare(tally: &mut Tally, sheet: &Sheet, given: &Slot, read: &Slot, ours: &[&Finding]) {
    let Some(looked) = Looked::new(sheet, given) else {
        return;
    };
    if looked.subjects() > MOST {
        return;
    }
    let case = || format!("{given:?}, printed {read:?}, on {sheet:?}");
    let (differs, always) = by_settings(sheet, given, read, &looked);
    let apart = ours.iter().find(|finding| finding.differs());
    tally.count("slot by settings", differs.into());
    tally.same("faithful", &apart.is_some(), &differs, case);
    let told = ours.iter().any(|f| f.what == Found::AlwaysListed);
    let expected = always && !given.requirements.is_empty();
    tally.same("always listed", &told, &expected, case);
    if let Some(finding) = apart {
        let save = finding.save(&convert::sheet(sheet)).expect("it differs");
        let seen = (item(sheet, given, &save), item(sheet, read, &save));
        let expected = (-1, i32::from(looked.item()));
        tally.same("save told", &seen, &expected, case);
        tally.same("entry", &place(finding), &reason(sheet, given), case);
    }
}

/// What is no matter of meaning.
fn surprises(tally: &mut Tally, sheet: &Sheet, given: &Slot, ours: &[&Finding]) {
    let case = || format!("{given:?} on {sheet:?}");
    let mut set = given.requirements.clone();
    set.sort();
    set.dedup();
    let mut expected = Vec::new();
    if given.item.is_none() && !given.requirements.is_empty() {
        expected.push(Found::Lost(given.requirements.len()));
    }
    if let Some(item) = given.item {
        let used = limit(sheet, item, given.limit) as i16;
        if used != given.limit {
            let given = given.limit;
            expected.push(Found::Coerced { given, used });
        }
    }
    if set.len() < given.requirements.len() {
        expected.push(Found::Doubled(given.requirements.len() - set.len()));
    }
    let told: Vec<Found> = ours
        .iter()
        .map(|finding| finding.what.clone())
        .filter(|what| {
            matches!(
                what,
                Found::Lost(_) | Found::Coerced { .. } | Found::Doubled(_)
            )
        })
        .collect();
    tally.same("surprises", &told, &expected, case);
}

/// The first entry whose flag no save has, of a slot with an item.
fn stray(slot: &Slot) -> Option<usize> {
    slot.item?;
    let outside = |r: &Requirement| match *r {
        Requirement::HaveFlag(n) | Requirement::MissingFlag(n) => !(0..2_048).contains(&n),
        _ => false,
    };
    slot.requirements.iter().position(outside)
}

fn check(tally: &mut Tally, sheet: &Sheet, slots: &[Slot]) {
    let shop = Shop::with_slots(slots.iter().map(convert::slot));
    let ours = shop
        .check(&convert::sheet(sheet))
        .map_err(|refused| refused.number());
    let theirs = printed(sheet, slots);
    tally.count("check", ours.as_ref().err().copied().unwrap_or(0));
    let case = || format!("{slots:?} on {sheet:?}");
    let (refused, expected) = (ours.as_ref().err(), theirs.as_ref().err());
    tally.same("refusal of a check", &refused, &expected, case);
    let (Ok(ours), Ok(theirs)) = (ours, theirs) else {
        return;
    };
    for (i, (given, read)) in slots.iter().zip(&theirs).enumerate() {
        let ours: Vec<&Finding> = ours.iter().filter(|finding| finding.slot == i).collect();
        surprises(tally, sheet, given, &ours);
        let told = ours.iter().find_map(|finding| match finding.what {
            Found::FlagOutside { entry, .. } => Some(entry),
            _ => None,
        });
        tally.same("flag outside", &told, &stray(given), case);
        if stray(given).is_none() {
            compare(tally, sheet, given, read, &ours);
        }
    }
}

/// Random shops of three slots, few of them refused.
pub fn random(tally: &mut Tally, random: &mut Random, count: usize) {
    for _ in 0..count {
        let mut sheet = make::sheet(random);
        let slots: Vec<Slot> = (0..3).map(|_| slot(random, &sheet)).collect();
        if random.once_in(40) {
            sheet.timers[1] = sheet.timers[0];
        }
        check(tally, &sheet, &slots);
    }
}
