//! The save that a run meets.

use crate::{Atc, Item, NUM_SLOTS, Part, Sheet};

/// How many flags a save has.
pub const FLAGS: usize = 2_048;
/// How many times a save has.
pub const TIMES: usize = 8;
/// How many variables a save has.
pub const VARIABLES: usize = 1_024;
/// The variable from which on each slot's item is kept.
pub const ITEM_FIRST: usize = 600;
/// The variable from which on each slot's count is kept.
pub const COUNT_FIRST: usize = ITEM_FIRST + NUM_SLOTS;

/// A save. It is judged by the calls that take it, with refusal 12: each length as the sheet and
/// document 01 have it, counts not below 0, attachments and flags 0 or 1.
///
/// ```
/// use locustkeno::{Atc, Item, Save, Sheet};
/// let sheet = Sheet::new(&[None, None, None, Some(Atc(0))], 1, [Item(0), Item(1), Item(2)]);
/// let save = Save::new(&sheet).with_item(Item(2), 5).with_atc(Atc(0)).with_flag(40).with_time(2, 200);
/// assert_eq!((save.items[2], save.atcs[0], save.flags[40], save.times[2]), (5, 1, 1, 200));
/// ```
#[derive(Debug, Clone, PartialEq, Eq)]
pub struct Save {
    /// A count for each item.
    pub items: Vec<i16>,
    /// 0 or 1 for each attachment.
    pub atcs: Vec<u8>,
    /// 0 or 1 for each flag.
    pub flags: Vec<u8>,
    /// The times, of which the slot of a timer asks number 2.
    pub times: Vec<i16>,
    /// The variables, which a run writes.
    pub variables: Vec<i32>,
}

impl Save {
    /// A save that fits the sheet, with 0 everywhere.
    #[must_use]
    pub fn new(sheet: &Sheet) -> Self {
        Self {
            items: vec![0; sheet.items()],
            atcs: vec![0; sheet.atcs()],
            flags: vec![0; FLAGS],
            times: vec![0; TIMES],
            variables: vec![0; VARIABLES],
        }
    }

    /// This save with so many of an item.
    ///
    /// # Panics
    ///
    /// Where the save has no such item.
    #[must_use]
    pub fn with_item(mut self, item: Item, count: i16) -> Self {
        *place(&mut self.items, item.0.into(), "item") = count;
        self
    }

    /// This save with an attachment.
    ///
    /// # Panics
    ///
    /// Where the save has no such attachment.
    #[must_use]
    pub fn with_atc(mut self, atc: Atc) -> Self {
        *place(&mut self.atcs, atc.0.into(), "attachment") = 1;
        self
    }

    /// This save with a flag set.
    ///
    /// # Panics
    ///
    /// Where the save has no such flag.
    #[must_use]
    pub fn with_flag(mut self, flag: usize) -> Self {
        *place(&mut self.flags, flag, "flag") = 1;
        self
    }

    /// This save with another time.
    ///
    /// # Panics
    ///
    /// Where the save has no such time.
    #[must_use]
    pub fn with_time(mut self, time: usize, value: i16) -> Self {
        *place(&mut self.times, time, "time") = value;
        self
    }

    /// The item and the count that a run left for a slot; the item is -1 where it is hidden.
    ///
    /// # Panics
    ///
    /// Where there is no such slot, or the save has fewer than [`VARIABLES`] variables.
    #[must_use]
    pub fn pair(&self, slot: usize) -> (i32, i32) {
        assert!(
            slot < NUM_SLOTS,
            "slot {slot} is none of a shop's {NUM_SLOTS}"
        );
        (
            self.variables[ITEM_FIRST + slot],
            self.variables[COUNT_FIRST + slot],
        )
    }
}

impl Save {
    /// The first part that has another length than the sheet and document 01 ask for.
    pub(crate) fn wrong_length(&self, sheet: &Sheet) -> Option<Part> {
        let lengths = [
            (Part::Items, self.items.len(), sheet.items()),
            (Part::Atcs, self.atcs.len(), sheet.atcs()),
            (Part::Flags, self.flags.len(), FLAGS),
            (Part::Times, self.times.len(), TIMES),
            (Part::Variables, self.variables.len(), VARIABLES),
        ];
        let mut wrong = lengths.iter().filter(|(_, len, due)| len != due);
        wrong.next().map(|(part, ..)| *part)
    }
}

/// What a part of a save holds at a number.
fn place<'a, T>(part: &'a mut [T], number: usize, what: &str) -> &'a mut T {
    let len = part.len();
    let found = part.get_mut(number);
    found.unwrap_or_else(|| panic!("{what} {number} is none of the save's {len}"))
}
