//! Where a shop or a save is refused: a help for the reader, which decides nothing.

use crate::shop::{ENTRIES, Row, ShopArrays};
use crate::{Refusal, Refused, Save, Sheet, ffi};
use std::fmt;

/// Where a shop (8) or a save (12) was refused: the first such place. Slots and entries are counted from 0; where a single slot
/// or save was given, it is number 0.
///
/// It is a help for the reader, looked for after the refusal, and decides nothing: in a shop the library is asked again about each
/// item and entry alone, in a save the ranges are looked at.
#[derive(Debug, Copy, Clone, PartialEq, Eq, Hash)]
#[non_exhaustive]
pub enum Place {
    /// The item of a slot is not on the sheet.
    Item {
        /// The slot.
        slot: u8,
    },
    /// An entry of a slot's requirements is not on the sheet.
    Entry {
        /// The slot.
        slot: u8,
        /// The entry among those that were given.
        entry: u8,
    },
    /// The slot was given over 14 entries.
    Entries {
        /// The slot.
        slot: u8,
    },
    /// A part of a save has another length than the sheet and document 01 ask for.
    Length {
        /// Which of the saves.
        save: u16,
        /// The part.
        part: Part,
    },
    /// A value of a save is below 0, or neither 0 nor 1 where it has to be.
    Value {
        /// Which of the saves.
        save: u16,
        /// The part.
        part: Part,
        /// The place of the value in the part.
        at: u16,
    },
}

/// A part of a save.
#[derive(Debug, Copy, Clone, PartialEq, Eq, Hash)]
pub enum Part {
    /// The counts of items.
    Items,
    /// The attachments.
    Atcs,
    /// The flags.
    Flags,
    /// The times.
    Times,
    /// The variables.
    Variables,
}

impl fmt::Display for Part {
    fn fmt(&self, f: &mut fmt::Formatter<'_>) -> fmt::Result {
        f.write_str(match self {
            Self::Items => "items",
            Self::Atcs => "attachments",
            Self::Flags => "flags",
            Self::Times => "times",
            Self::Variables => "variables",
        })
    }
}

impl fmt::Display for Place {
    fn fmt(&self, f: &mut fmt::Formatter<'_>) -> fmt::Result {
        match self {
            Self::Item { slot } => write!(f, "the item of slot {slot}"),
            Self::Entry { slot, entry } => write!(f, "entry {entry} of slot {slot}"),
            Self::Entries { slot } => write!(f, "the number of entries of slot {slot}"),
            Self::Length { save, part } => write!(f, "the number of {part} in save {save}"),
            Self::Value { save, part, at } => write!(f, "number {at} of the {part} in save {save}"),
        }
    }
}

/// Whether the library refuses a slot of this item and these codes with 8. The slot has at most two subjects, so that the
/// count that is answered costs nothing.
fn is_bad(sheet: &Sheet, item: i32, code: Option<u64>) -> bool {
    let mut row: Row = [0; ENTRIES];
    row[0] = code.unwrap_or(0);
    let answer = ffi::settings(sheet, item, 0, &row, code.is_some().into());
    answer.refusal == Refusal::BadShop.number()
}

/// The first place in a slot that is refused with 8 when it stands alone; of the row the first `len` are given.
fn in_slot(sheet: &Sheet, slot: u8, item: i32, row: &[u64], len: u8) -> Option<Place> {
    let given = usize::from(len);
    if is_bad(sheet, item, None) {
        return Some(Place::Item { slot });
    }
    if given > ENTRIES {
        return Some(Place::Entries { slot });
    }
    let mut entries = (0..len).zip(row);
    let (entry, _) = entries.find(|(_, code)| is_bad(sheet, -1, Some(**code)))?;
    Some(Place::Entry { slot, entry })
}

/// The first value in a save that is outside its range.
fn wrong_value(save: &Save) -> Option<(Part, usize)> {
    let values = [
        (Part::Items, save.items.iter().position(|count| *count < 0)),
        (Part::Atcs, save.atcs.iter().position(|held| *held > 1)),
        (Part::Flags, save.flags.iter().position(|flag| *flag > 1)),
    ];
    let mut wrong = values.into_iter();
    wrong.find_map(|(part, at)| Some((part, at?)))
}

/// The first place in a save that does not fit the sheet.
fn in_save(sheet: &Sheet, save: u16, given: &Save) -> Option<Place> {
    if let Some(part) = given.wrong_length(sheet) {
        return Some(Place::Length { save, part });
    }
    let (part, at) = wrong_value(given)?;
    let at = u16::try_from(at).ok()?;
    Some(Place::Value { save, part, at })
}

impl Refused {
    /// With the place in a slot, as the library takes it, if it is the shop that is refused.
    pub(crate) fn in_slot(self, sheet: &Sheet, slot: u32, item: i32, row: &Row, len: u8) -> Self {
        self.met(Refusal::BadShop, || {
            let slot = u8::try_from(slot).ok()?;
            in_slot(sheet, slot, item, row, len)
        })
    }

    /// With the place in the shop, if it is the shop that is refused.
    pub(crate) fn in_shop(self, sheet: &Sheet, shop: &ShopArrays) -> Self {
        self.met(Refusal::BadShop, || {
            let mut slots = (0..).zip(shop.items).enumerate();
            slots.find_map(|(i, (slot, item))| {
                let (row, len) = shop.entries(i);
                in_slot(sheet, slot, item, row, len)
            })
        })
    }

    /// With the place in one of the saves, if it is a save that is refused.
    pub(crate) fn in_saves(self, sheet: &Sheet, saves: &[Save]) -> Self {
        self.met(Refusal::BadSave, || {
            let mut saves = (0..=u16::MAX).zip(saves);
            saves.find_map(|(number, save)| in_save(sheet, number, save))
        })
    }
}
