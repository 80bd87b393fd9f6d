// The module event: six original files among stand-ins for those that are not at hand.

pub use crate::standins::{analysis, serialize};

#[path = "opcodes.rs"]
pub mod opcodes;

#[path = "../original/event/block.rs"]
pub mod block;
#[path = "../original/event/command.rs"]
pub mod command;
#[path = "../original/event/expr.rs"]
pub mod expr;
#[path = "../original/event/msg.rs"]
pub mod msg;
#[path = "../original/event/pointer.rs"]
pub mod pointer;
#[path = "../original/event/script.rs"]
pub mod script;

pub use block::{Block, CodeBlock, DataBlock};
pub use command::Command;
pub use expr::{Expr, SetExpr};
pub use pointer::{BlockId, Pointer};
pub use script::Script;
