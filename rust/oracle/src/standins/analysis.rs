//! A stand-in for the script analysis, of which the shop only asks what a subroutine overwrites.

use crate::event::BlockId;
use std::collections::{HashMap, HashSet};

/// Nothing here analyses, so nothing can fail.
#[derive(Debug)]
pub enum Error {}

/// A place that a subroutine may overwrite.
#[derive(Debug, Copy, Clone, Hash, PartialEq, Eq)]
pub enum Label {
    Variable(i16),
}

/// What a subroutine overwrites.
#[derive(Debug, Clone, Default)]
pub struct SubroutineEffects {
    pub killed: HashSet<Label>,
}

/// The effects of the subroutines by their first block.
pub type SubroutineEffectsMap = HashMap<BlockId, SubroutineEffects>;
