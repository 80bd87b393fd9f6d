//! How much of each limit a script uses.

use crate::Script;
use crate::arrays::{BLOCKS, COMMANDS, NODES};

/// How much a script may hold of something, and how much of that is used.
#[derive(Debug, Copy, Clone, PartialEq, Eq)]
pub struct Use {
    /// How much is used.
    pub used: usize,
    /// How much it may be.
    pub limit: usize,
}

impl Use {
    fn new(used: u16, limit: usize) -> Self {
        Self {
            used: used.into(),
            limit,
        }
    }

    /// How many more there is room for.
    #[must_use]
    pub fn left(self) -> usize {
        self.limit.saturating_sub(self.used)
    }
}

/// How much of each limit a script uses. A compile that would pass one of them is refusal 9.
#[derive(Debug, Copy, Clone, PartialEq, Eq)]
pub struct Room {
    /// The blocks.
    pub blocks: Use,
    /// The commands.
    pub commands: Use,
    /// The nodes of all expressions.
    pub nodes: Use,
}

impl Script {
    /// How much of each limit the script uses, by its kept counts. A compile only adds to them, also where
    /// it empties a block; [`Script::reclaim`] counts afresh.
    ///
    /// ```
    /// use locustkeno::{Item, Loader, Refused, Script, Sheet, Shop};
    /// let sheet = Sheet::new(&[None; 3], 0, [Item(0), Item(1), Item(2)]);
    /// let mut script = Script::read(&[1, 1, 1, 0, 0, 0])?;
    /// let room = script.room();
    /// assert_eq!([room.blocks, room.commands, room.nodes].map(|one| one.used), [1, 1, 0]);
    /// assert_eq!([room.blocks, room.commands, room.nodes].map(|one| one.limit), [4_096, 16_384, 32_768]);
    /// // The shop's blocks have 41 commands, and the Return of the emptied block 0 still counts.
    /// script.compile(&sheet, Loader::Disc, 0, &Shop::with_slots([]))?;
    /// assert_eq!(script.room().commands.used, 42);
    /// script.reclaim(&[0])?;
    /// assert_eq!(script.room().commands.used, 41);
    /// assert_eq!(script.room().blocks.left(), 4_096 - 22);
    /// # Ok::<(), Refused>(())
    /// ```
    #[must_use]
    pub fn room(&self) -> Room {
        let a = &self.arrays;
        Room {
            blocks: Use::new(a.blocks, BLOCKS),
            commands: Use::new(a.commands, COMMANDS),
            nodes: Use::new(a.nodes, NODES),
        }
    }
}
