//! A requirement of a slot, and all of them: a list that compares as a set.

use crate::{Atc, Item};
use std::collections::{BTreeSet, HashSet};
use std::fmt;
use std::ops::{Deref, DerefMut};

/// A requirement for an item to be visible in the shop; the order is by kind, then by number.
#[derive(Debug, Copy, Clone, PartialEq, Eq, PartialOrd, Ord, Hash)]
pub enum Requirement {
    /// The player must have an item.
    HaveItem(Item),
    /// The player must not have an item.
    MissingItem(Item),
    /// The player must have an attachment.
    HaveAtc(Atc),
    /// The player must not have an attachment.
    MissingAtc(Atc),
    /// A flag must be set.
    HaveFlag(i32),
    /// A flag must not be set.
    MissingFlag(i32),
}

impl Requirement {
    /// The opposite of the requirement.
    ///
    /// ```
    /// use locustkeno::Requirement;
    /// assert_eq!(Requirement::HaveFlag(40).negate(), Requirement::MissingFlag(40));
    /// ```
    #[must_use]
    pub fn negate(&self) -> Self {
        match *self {
            Self::HaveItem(item) => Self::MissingItem(item),
            Self::MissingItem(item) => Self::HaveItem(item),
            Self::HaveAtc(atc) => Self::MissingAtc(atc),
            Self::MissingAtc(atc) => Self::HaveAtc(atc),
            Self::HaveFlag(flag) => Self::MissingFlag(flag),
            Self::MissingFlag(flag) => Self::HaveFlag(flag),
        }
    }

    /// The flag that it asks about.
    pub(crate) fn flag(self) -> Option<i32> {
        match self {
            Self::HaveFlag(flag) | Self::MissingFlag(flag) => Some(flag),
            _ => None,
        }
    }
}

/// The requirements of a slot: a [`Vec`] in the order in which they were given, equal to another as sets are. Order and repeats
/// tell nothing, but every entry that was given counts for the [`ENTRIES`](crate::ENTRIES) that a slot may have.
///
/// [`insert`](Self::insert) and [`remove`](Self::remove) are those of a set and stand before the `Vec`'s.
///
/// ```
/// use locustkeno::Requirement::{HaveFlag, MissingFlag};
/// use locustkeno::Requirements;
/// let mut requirements = Requirements::from([HaveFlag(2), HaveFlag(1)]);
/// assert_eq!(requirements, [HaveFlag(1), HaveFlag(2)]);
/// assert!(!requirements.insert(HaveFlag(1)) && requirements.insert(MissingFlag(7)));
/// assert!(requirements.contains(&MissingFlag(7)) && requirements.remove(&MissingFlag(7)));
/// // Given twice, it is the same set and one entry more.
/// requirements.push(HaveFlag(1));
/// assert_eq!(requirements, [HaveFlag(1), HaveFlag(2)]);
/// assert_eq!(requirements.len(), 3);
/// ```
#[derive(Clone, Default, Eq)]
pub struct Requirements(Vec<Requirement>);

impl Requirements {
    /// No requirements.
    #[must_use]
    pub const fn new() -> Self {
        Self(Vec::new())
    }

    /// Gives a requirement unless it is there, and says whether it was not.
    pub fn insert(&mut self, requirement: Requirement) -> bool {
        let new = !self.0.contains(&requirement);
        if new {
            self.0.push(requirement);
        }
        new
    }

    /// Takes a requirement away, repeats too, and says whether it was there.
    pub fn remove(&mut self, requirement: &Requirement) -> bool {
        let before = self.0.len();
        self.0.retain(|entry| entry != requirement);
        self.0.len() < before
    }

    /// Whether the other list has the same set.
    fn same(&self, other: &[Requirement]) -> bool {
        let set = |entries: &[Requirement]| entries.iter().copied().collect::<BTreeSet<_>>();
        self.0 == other || set(&self.0) == set(other)
    }
}

impl fmt::Debug for Requirements {
    fn fmt(&self, f: &mut fmt::Formatter<'_>) -> fmt::Result {
        self.0.fmt(f)
    }
}

impl Deref for Requirements {
    type Target = Vec<Requirement>;

    fn deref(&self) -> &Self::Target {
        &self.0
    }
}

impl DerefMut for Requirements {
    fn deref_mut(&mut self) -> &mut Self::Target {
        &mut self.0
    }
}

impl PartialEq for Requirements {
    fn eq(&self, other: &Self) -> bool {
        self.same(other)
    }
}

impl PartialEq<Vec<Requirement>> for Requirements {
    fn eq(&self, other: &Vec<Requirement>) -> bool {
        self.same(other)
    }
}

impl<const N: usize> PartialEq<[Requirement; N]> for Requirements {
    fn eq(&self, other: &[Requirement; N]) -> bool {
        self.same(other)
    }
}

impl PartialEq<HashSet<Requirement>> for Requirements {
    fn eq(&self, other: &HashSet<Requirement>) -> bool {
        *self == other.iter().copied().collect::<Self>()
    }
}

impl FromIterator<Requirement> for Requirements {
    fn from_iter<I: IntoIterator<Item = Requirement>>(entries: I) -> Self {
        Self(entries.into_iter().collect())
    }
}

impl Extend<Requirement> for Requirements {
    fn extend<I: IntoIterator<Item = Requirement>>(&mut self, entries: I) {
        self.0.extend(entries);
    }
}

impl From<Vec<Requirement>> for Requirements {
    fn from(entries: Vec<Requirement>) -> Self {
        Self(entries)
    }
}

impl<const N: usize> From<[Requirement; N]> for Requirements {
    fn from(entries: [Requirement; N]) -> Self {
        Self(entries.into())
    }
}

impl From<&[Requirement]> for Requirements {
    fn from(entries: &[Requirement]) -> Self {
        Self(entries.into())
    }
}

impl From<HashSet<Requirement>> for Requirements {
    fn from(entries: HashSet<Requirement>) -> Self {
        entries.into_iter().collect()
    }
}

impl IntoIterator for Requirements {
    type Item = Requirement;
    type IntoIter = std::vec::IntoIter<Requirement>;

    fn into_iter(self) -> Self::IntoIter {
        self.0.into_iter()
    }
}

impl<'a> IntoIterator for &'a Requirements {
    type Item = &'a Requirement;
    type IntoIter = std::slice::Iter<'a, Requirement>;

    fn into_iter(self) -> Self::IntoIter {
        self.0.iter()
    }
}

impl<'a> IntoIterator for &'a mut Requirements {
    type Item = &'a mut Requirement;
    type IntoIter = std::slice::IterMut<'a, Requirement>;

    fn into_iter(self) -> Self::IntoIter {
        self.0.iter_mut()
    }
}
