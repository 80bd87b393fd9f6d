//! The arrays and counts that a script is, always on the heap.

use crate::Refused;
use crate::ffi::Kept;

/// The limits of a script.
pub const NODES: usize = 32_768;
pub const COMMANDS: usize = 16_384;
pub const BLOCKS: usize = 4_096;

/// Nodes: code, left operand, right operand at 3n, 3n + 1, 3n + 2.
pub type NodeWords = [u16; 3 * NODES];
/// The number of an Imm node.
pub type Values = [i32; NODES];
/// Commands: code, two expressions, a block at 4c ..
pub type CommandWords = [u16; 4 * COMMANDS];
/// Blocks: kind, first command, how many, next + 1, else + 1 at 5b ..
pub type BlockWords = [u16; 5 * BLOCKS];
/// The birth mark of each place of a block.
pub type Births = [u32; BLOCKS];
/// The new number + 1 of each place of a block, or 0 where the block is gone.
pub type MovedWords = [u16; BLOCKS];

/// A script record: four arrays with three kept counts, and beside them where each block came from.
/// What lies past the kept counts means nothing, marks past the block count included.
#[derive(Debug, PartialEq, Eq)]
pub struct Arrays {
    /// The nodes of all expressions.
    pub ws: Box<NodeWords>,
    /// Their numbers.
    pub val: Box<Values>,
    /// The commands.
    pub cw: Box<CommandWords>,
    /// The blocks.
    pub bw: Box<BlockWords>,
    /// How many nodes there are.
    pub nodes: u16,
    /// How many commands there are.
    pub commands: u16,
    /// How many blocks there are.
    pub blocks: u16,
    /// For each block 0 if it was read or built at the start, else the ordinal of the accepted compile
    /// that appended it.
    pub births: Box<Births>,
    /// How many compiles were accepted.
    pub compiles: u32,
}

/// A vector's elements as an array on the heap; an array that is made first would lie on the stack.
fn on_heap<T: std::fmt::Debug, const N: usize>(elements: Vec<T>) -> Box<[T; N]> {
    let array: Result<Box<[T; N]>, _> = elements.into_boxed_slice().try_into();
    array.expect("the vector has N elements")
}

pub(crate) fn zeros<T: Copy + Default + std::fmt::Debug, const N: usize>() -> Box<[T; N]> {
    on_heap(vec![T::default(); N])
}

impl Arrays {
    /// Takes over the counts that a call answered, and says whether it was refused.
    pub(crate) fn keep(&mut self, kept: Kept) -> Result<(), Refused> {
        (self.nodes, self.commands, self.blocks) = (kept.nodes, kept.commands, kept.blocks);
        self.compiles = kept.compiles;
        Refused::check(kept.refusal)
    }
}

impl Default for Arrays {
    /// A script without blocks.
    fn default() -> Self {
        Self {
            ws: zeros(),
            val: zeros(),
            cw: zeros(),
            bw: zeros(),
            nodes: 0,
            commands: 0,
            blocks: 0,
            births: zeros(),
            compiles: 0,
        }
    }
}

impl Clone for Arrays {
    fn clone(&self) -> Self {
        Self {
            ws: on_heap(self.ws.to_vec()),
            val: on_heap(self.val.to_vec()),
            cw: on_heap(self.cw.to_vec()),
            bw: on_heap(self.bw.to_vec()),
            births: on_heap(self.births.to_vec()),
            ..*self
        }
    }
}
