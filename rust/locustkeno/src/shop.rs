//! Slots and shops.

use crate::{BlockId, FLAGS, Item, Loader, Refused, Requirements, Script, Sheet};
use std::fmt;
use std::sync::OnceLock;

/// The number of slots in a shop.
pub const NUM_SLOTS: usize = 20;
/// The most entries that a slot may be given.
pub const ENTRIES: usize = 14;

/// Whether a save has the flag.
fn is_flag(number: i32) -> bool {
    usize::try_from(number).is_ok_and(|i| i < FLAGS)
}

/// An item slot in the shop.
#[derive(Debug, Clone, Default, PartialEq, Eq)]
pub struct Slot {
    /// The item in the slot. If `None`, the slot is unused.
    pub item: Option<Item>,
    /// The most of the item that the player can have.
    pub limit: i16,
    /// The requirements for the slot to be visible, in any order; one that is given twice counts
    /// once, but both count for the [`ENTRIES`] that may be given.
    pub requirements: Requirements,
}

impl Slot {
    /// An empty slot.
    #[must_use]
    pub fn new() -> Self {
        Self::default()
    }
}

/// A shop: twenty slots. Two shops are equal where their slots are, in which requirements compare as sets.
///
/// ```
/// use locustkeno::{Item, Loader, Refused, Requirement, Script, Sheet, Shop};
/// let sheet = Sheet::new(&[None; 8], 0, [Item(0), Item(1), Item(2)]);
/// let mut shop = Shop::new();
/// let slot = &mut shop.slots_mut()[0];
/// (slot.item, slot.limit) = (Some(Item(7)), 3);
/// slot.requirements.extend([Requirement::HaveFlag(2), Requirement::HaveFlag(1)]);
/// let mut script = Script::new();
/// shop.compile(&mut script, &sheet, Loader::Disc, 0)?;
/// assert_eq!(Shop::parse(&script, &sheet, 0)?, shop);
/// # Ok::<(), Refused>(())
/// ```
#[derive(Clone)]
pub struct Shop {
    // One of the two is always there, and where both are they are the same shop. The library's calls need only the arrays, and
    // who looks at a shop or changes it by hand only the slots.
    arrays: OnceLock<Box<ShopArrays>>,
    slots: OnceLock<Vec<Slot>>,
}

impl Shop {
    /// An empty shop.
    #[must_use]
    pub fn new() -> Self {
        Self::with_slots([])
    }

    /// A shop with these slots, however many: the library drops those past the twentieth unchecked and
    /// makes missing ones empty.
    ///
    /// ```
    /// use locustkeno::{Item, Shop, Slot};
    /// let slot = Slot { item: Some(Item(7)), limit: 3, ..Slot::new() };
    /// let shop = Shop::with_slots([slot.clone()]);
    /// assert_eq!(shop.slots().len(), 20);
    /// assert_eq!((&shop.slots()[0], &shop.slots()[19]), (&slot, &Slot::new()));
    /// ```
    pub fn with_slots(slots: impl IntoIterator<Item = Slot>) -> Self {
        // Slots may come without end, as in the source; one that is dropped stands for all.
        let mut slots: Vec<Slot> = slots.into_iter().take(GIVEN).collect();
        let arrays = ShopArrays::of(&slots);
        slots.resize(NUM_SLOTS, Slot::new());
        Self {
            arrays: arrays.into(),
            slots: slots.into(),
        }
    }

    /// Reads the shop that starts at a block of a script: [`Script::parse`].
    pub fn parse(
        script: &Script,
        sheet: &Sheet,
        setup: impl Into<BlockId>,
    ) -> Result<Self, Refused> {
        script.parse(sheet, setup)
    }

    /// Compiles the shop into a script and links it at a block: [`Script::compile`].
    pub fn compile(
        &self,
        script: &mut Script,
        sheet: &Sheet,
        loader: Loader,
        setup: impl Into<BlockId>,
    ) -> Result<(), Refused> {
        script.compile(sheet, loader, setup, self)
    }

    /// The twenty slots.
    #[must_use]
    pub fn slots(&self) -> &[Slot] {
        self.slots.get_or_init(|| self.arrays().slots())
    }

    /// The twenty slots, to be changed. They are judged by the calls that take the shop, with refusal 8.
    #[must_use]
    pub fn slots_mut(&mut self) -> &mut [Slot] {
        let _ = self.slots();
        // What was made of the slots before is no longer theirs.
        self.arrays.take();
        self.slots.get_mut().expect("they were made above")
    }

    /// Each flag outside 0 to 2,047 that a slot with an item asks about, with the slot's number: what was probably typed
    /// wrongly. Where there is one, runs of the compiled shop and previews are refused with 23, and only there. A slot without
    /// an item reads nothing.
    ///
    /// ```
    /// use locustkeno::{Item, Requirement, Shop, Slot};
    /// let requirements = [Requirement::HaveFlag(40), Requirement::MissingFlag(20_480)].into();
    /// let typo = Slot { item: Some(Item(7)), limit: 3, requirements };
    /// let unused = Slot { item: None, ..typo.clone() };
    /// assert_eq!(Shop::with_slots([unused, typo]).stray_flags(), [(1, 20_480)]);
    /// ```
    #[must_use]
    pub fn stray_flags(&self) -> Vec<(usize, i32)> {
        let mut strays = Vec::new();
        for (i, slot) in self.slots().iter().enumerate() {
            if slot.item.is_none() {
                continue;
            }
            let flags = slot.requirements.iter().filter_map(|r| r.flag());
            strays.extend(flags.filter(|flag| !is_flag(*flag)).map(|flag| (i, flag)));
        }
        strays
    }

    /// The shop as the library takes it. Where a slot was given over [`ENTRIES`] entries, its first are there.
    #[must_use]
    pub fn arrays(&self) -> &ShopArrays {
        self.arrays.get_or_init(|| ShopArrays::of(self.slots()))
    }

    /// The shop that the library left in the arrays; no slot of it has over `ENTRIES` entries.
    pub(crate) fn from_arrays(arrays: Box<ShopArrays>) -> Self {
        Self {
            arrays: arrays.into(),
            slots: OnceLock::new(),
        }
    }

    /// Lets the library change the arrays, and brings what it changed into the slots. The rest of them stays as it is, since of
    /// over `ENTRIES` entries the arrays hold the first only.
    pub(crate) fn change(&mut self, call: impl FnOnce(&mut ShopArrays) -> u8) -> u8 {
        let before = self.arrays().clone();
        let arrays = self.arrays.get_mut().expect("they were made above");
        let refusal = call(arrays);
        let slots = self.slots.get_mut().into_iter().flatten();
        for (i, slot) in slots.enumerate() {
            (slot.item, slot.limit) = (arrays.item(i), arrays.limits[i]);
            if arrays.entries(i) != before.entries(i) {
                slot.requirements = arrays.requirements(i);
            }
        }
        refusal
    }
}

impl Default for Shop {
    fn default() -> Self {
        Self::new()
    }
}

impl PartialEq for Shop {
    fn eq(&self, other: &Self) -> bool {
        self.slots() == other.slots()
    }
}

impl Eq for Shop {}

impl fmt::Debug for Shop {
    fn fmt(&self, f: &mut fmt::Formatter<'_>) -> fmt::Result {
        f.debug_list().entries(self.slots()).finish()
    }
}

use crossing::GIVEN;
pub use crossing::{Codes, ShopArrays};
pub(crate) use crossing::{Given, Row, item_number, requirement, row};

/// Slots as the library takes them, there and back.
mod crossing {
    use super::{ENTRIES, NUM_SLOTS, Slot};
    use crate::{Atc, Item, Requirement, Requirements, ffi};

    /// Codes of requirements, [`ENTRIES`] for each slot: the kind, 0 to 5 in sorting order, times 2^32, plus the number, plus 2^31.
    pub type Codes = [u64; NUM_SLOTS * ENTRIES];

    /// The codes of one slot.
    pub type Row = [u64; ENTRIES];

    /// A shop as the four arrays that the library takes.
    #[derive(Debug, Clone, PartialEq, Eq)]
    pub struct ShopArrays {
        /// The item of each slot, -1 for none.
        pub items: [i32; NUM_SLOTS],
        /// The limit of each slot.
        pub limits: [i16; NUM_SLOTS],
        /// The codes of each slot's entries.
        pub codes: Codes,
        /// How many entries each slot was given. Over [`ENTRIES`] is refusal 8.
        pub lens: [u8; NUM_SLOTS],
    }

    /// How many slots are handed to the library at most: one that it drops stands for all past the twentieth.
    pub const GIVEN: usize = NUM_SLOTS + 1;

    /// The slots given, each with `ENTRIES` codes, where they lie: nothing is allocated.
    pub struct Given {
        count: usize,
        items: [i32; GIVEN],
        limits: [i16; GIVEN],
        codes: [u64; GIVEN * ENTRIES],
        lens: [u8; GIVEN],
    }

    /// The kind times 2^32, plus the number, plus 2^31.
    fn code(requirement: Requirement) -> u64 {
        let (kind, number) = match requirement {
            Requirement::HaveItem(Item(n)) => (0, n.into()),
            Requirement::MissingItem(Item(n)) => (1, n.into()),
            Requirement::HaveAtc(Atc(n)) => (2, n.into()),
            Requirement::MissingAtc(Atc(n)) => (3, n.into()),
            Requirement::HaveFlag(n) => (4, i64::from(n)),
            Requirement::MissingFlag(n) => (5, i64::from(n)),
        };
        (kind << 32) + (number + (1 << 31)) as u64
    }

    /// Requirements by their codes, and how many there are. Entries past `ENTRIES` have no place among the codes, but count.
    pub fn row(requirements: &[Requirement]) -> (Row, u8) {
        let mut row = [0; ENTRIES];
        for (place, entry) in row.iter_mut().zip(requirements) {
            *place = code(*entry);
        }
        (row, u8::try_from(requirements.len()).unwrap_or(u8::MAX))
    }

    /// The requirement that a code stands for.
    pub fn requirement(code: u64) -> Requirement {
        let number = ((code & 0xFFFF_FFFF) as i64 - (1 << 31)) as i32;
        let id = number as u16;
        match code >> 32 {
            0 => Requirement::HaveItem(Item(id)),
            1 => Requirement::MissingItem(Item(id)),
            2 => Requirement::HaveAtc(Atc(id)),
            3 => Requirement::MissingAtc(Atc(id)),
            4 => Requirement::HaveFlag(number),
            _ => Requirement::MissingFlag(number),
        }
    }

    impl ShopArrays {
        /// The arrays of an empty shop.
        #[inline]
        pub(crate) fn new() -> Self {
            Self {
                items: [-1; NUM_SLOTS],
                limits: [0; NUM_SLOTS],
                codes: [0; NUM_SLOTS * ENTRIES],
                lens: [0; NUM_SLOTS],
            }
        }

        /// The twenty slots that the library makes of these, at most `GIVEN`.
        pub(crate) fn of(slots: &[Slot]) -> Box<Self> {
            let mut given = Given::new();
            slots.iter().for_each(|slot| given.push(slot));
            let mut arrays = Box::new(Self::new());
            ffi::with_slots(&given, &mut arrays);
            arrays
        }

        /// All slots.
        pub(crate) fn slots(&self) -> Vec<Slot> {
            (0..NUM_SLOTS).map(|i| self.slot(i)).collect()
        }

        /// The codes of slot i and how many were given.
        pub(crate) fn entries(&self, i: usize) -> (&[u64], u8) {
            (&self.codes[ENTRIES * i..][..ENTRIES], self.lens[i])
        }

        /// Slot i.
        pub(crate) fn slot(&self, i: usize) -> Slot {
            Slot {
                item: self.item(i),
                limit: self.limits[i],
                requirements: self.requirements(i),
            }
        }

        /// The item of slot i.
        pub(crate) fn item(&self, i: usize) -> Option<Item> {
            u16::try_from(self.items[i]).ok().map(Item)
        }

        /// The requirements of slot i.
        pub(crate) fn requirements(&self, i: usize) -> Requirements {
            let (codes, len) = self.entries(i);
            let given = &codes[..ENTRIES.min(len.into())];
            given.iter().map(|code| requirement(*code)).collect()
        }
    }

    /// The number that the library takes for an item: -1 for none.
    pub fn item_number(item: Option<Item>) -> i32 {
        item.map_or(-1, |item| item.0.into())
    }

    impl Given {
        pub fn new() -> Self {
            Self {
                count: 0,
                items: [-1; GIVEN],
                limits: [0; GIVEN],
                codes: [0; GIVEN * ENTRIES],
                lens: [0; GIVEN],
            }
        }

        /// One slot more.
        pub fn push(&mut self, slot: &Slot) {
            let i = self.count;
            self.items[i] = item_number(slot.item);
            self.limits[i] = slot.limit;
            let (row, len) = row(&slot.requirements);
            self.codes[ENTRIES * i..][..ENTRIES].copy_from_slice(&row);
            self.lens[i] = len;
            self.count += 1;
        }

        /// What was given, one behind another: items, limits, codes and lengths.
        pub fn words(&self) -> (&[i32], &[i16], &[u64], &[u8]) {
            let count = self.count;
            (
                &self.items[..count],
                &self.limits[..count],
                &self.codes[..count * ENTRIES],
                &self.lens[..count],
            )
        }
    }
}
