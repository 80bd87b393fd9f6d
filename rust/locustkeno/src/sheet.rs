//! The id sheet: which items and attachments there are.

use crate::{ENTRIES, Refused, ffi};

/// An item, by its number on the sheet.
#[derive(Debug, Copy, Clone, PartialEq, Eq, PartialOrd, Ord, Hash)]
pub struct Item(pub u16);

/// An attachment, by its number on the sheet.
#[derive(Debug, Copy, Clone, PartialEq, Eq, PartialOrd, Ord, Hash)]
pub struct Atc(pub u16);

/// The id sheet. It is judged by the calls that take it, with refusal 1.
///
/// ```
/// use locustkeno::{Atc, Item, Sheet};
/// // Four items, of which item 3 has the only attachment; items 0, 1 and 2 are the timers.
/// let sheet = Sheet::new(&[None, None, None, Some(Atc(0))], 1, [Item(0), Item(1), Item(2)]);
/// assert_eq!((sheet.items(), sheet.atcs()), (4, 1));
/// assert_eq!([2, 3, 4].map(|item| sheet.atc_of(Item(item))), [None, Some(Atc(0)), None]);
/// assert_eq!(sheet.timers()[2], Item(2));
/// ```
#[derive(Debug, Clone, PartialEq, Eq)]
pub struct Sheet {
    /// For each item its attachment + 1, or 0.
    pub(crate) attached: Vec<u8>,
    pub(crate) atcs: u16,
    /// Timer5, Timer10 and Timer15.
    pub(crate) timers: [Item; 3],
}

impl Sheet {
    /// A sheet of as many items as `atc_of` is long, each with its attachment or none, of `atcs`
    /// attachments, and of Timer5, Timer10 and Timer15.
    #[must_use]
    pub fn new(atc_of: &[Option<Atc>], atcs: u16, timers: [Item; 3]) -> Self {
        // No sheet has more than 64 attachments, so 255 is none of them: refusal 1.
        let entry = |atc: &Option<Atc>| {
            atc.map_or(0, |a| {
                u8::try_from(a.0).map_or(255, |a| a.saturating_add(1))
            })
        };
        Self {
            attached: atc_of.iter().map(entry).collect(),
            atcs,
            timers,
        }
    }

    /// What the library says of the sheet, with refusal 1, as every call does that takes it.
    ///
    /// ```
    /// use locustkeno::{Item, Refusal, Sheet};
    /// let timers = [Item(0), Item(1), Item(2)];
    /// assert_eq!(Sheet::new(&[None; 3], 0, timers).check(), Ok(()));
    /// // Three timers are three items at least, and no sheet has over 512.
    /// assert_eq!(Sheet::new(&[None; 2], 0, timers).check(), Err(Refusal::BadSheet.into()));
    /// assert_eq!(Sheet::new(&[None; 513], 0, timers).check(), Err(Refusal::BadSheet.into()));
    /// ```
    pub fn check(&self) -> Result<(), Refused> {
        // A slot of nothing is counted, of which only the sheet can be refused.
        let answer = ffi::settings(self, -1, 0, &[0; ENTRIES], 0);
        Refused::check(answer.refusal)
    }

    /// The attachment of an item, if it is on the sheet and has one.
    #[must_use]
    pub fn atc_of(&self, item: Item) -> Option<Atc> {
        let entry = self.attached.get(usize::from(item.0))?;
        entry.checked_sub(1).map(|atc| Atc(atc.into()))
    }

    /// Timer5, Timer10 and Timer15.
    #[must_use]
    pub fn timers(&self) -> [Item; 3] {
        self.timers
    }

    /// How many items there are.
    #[must_use]
    pub fn items(&self) -> usize {
        self.attached.len()
    }

    /// How many attachments there are.
    #[must_use]
    pub fn atcs(&self) -> usize {
        self.atcs.into()
    }
}
