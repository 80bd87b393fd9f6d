//! Blocks of a script, by their numbers.

use std::fmt;
use std::num::TryFromIntError;

/// A block of a script, by its number from 0 on. A call that is given a number that no block has answers refusal 6.
///
/// Calls take a plain number in its place.
///
/// ```
/// use locustkeno::{BlockId, Item, Script, Sheet};
/// let sheet = Sheet::new(&[None; 3], 0, [Item(0), Item(1), Item(2)]);
/// let setup = BlockId::new(0);
/// assert_eq!(Script::new().parse(&sheet, setup), Script::new().parse(&sheet, 0));
/// assert_eq!(setup.index(), 0);
/// ```
#[derive(Debug, Copy, Clone, PartialEq, Eq, PartialOrd, Ord, Hash)]
pub struct BlockId(u32);

impl BlockId {
    /// The block of this number.
    #[must_use]
    pub const fn new(number: u32) -> Self {
        Self(number)
    }

    /// The place of the block among those of a script.
    #[must_use]
    pub const fn index(self) -> usize {
        self.0 as usize
    }
}

impl fmt::Display for BlockId {
    fn fmt(&self, f: &mut fmt::Formatter<'_>) -> fmt::Result {
        self.0.fmt(f)
    }
}

impl From<u32> for BlockId {
    fn from(number: u32) -> Self {
        Self(number)
    }
}

impl From<BlockId> for u32 {
    fn from(block: BlockId) -> Self {
        block.0
    }
}

impl TryFrom<usize> for BlockId {
    type Error = TryFromIntError;

    fn try_from(number: usize) -> Result<Self, Self::Error> {
        u32::try_from(number).map(Self)
    }
}
