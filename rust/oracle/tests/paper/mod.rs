//! Short ways to write sheets, slots and bytes in tests.

use oracle::plain::{Block, Code, Command, Requirement, Script, Sheet, Slot};
use oracle::slots;

/// Eight items, item 7 plain, item 0 with attachment 0, timers 1, 2 and 3.
pub fn sheet() -> Sheet {
    let mut atc_of = vec![None; 8];
    atc_of[0] = Some(0);
    Sheet {
        atc_of,
        atcs: 1,
        timers: [1, 2, 3],
    }
}

/// A script of one Return block.
pub fn one_return() -> Script {
    let code = Code {
        commands: vec![Command::Return],
        ..Code::default()
    };
    Script {
        blocks: vec![Block::Code(code)],
    }
}

/// Bytes from their text in hexadecimal.
pub fn bytes(text: &str) -> Vec<u8> {
    let byte = |word| u8::from_str_radix(word, 16).expect("two hexadecimal digits");
    text.split_whitespace().map(byte).collect()
}

/// What `slots` prints for an input by document 01.
pub fn printed(input: &[u8]) -> String {
    slots::print(&slots::answer(input))
}

/// The twenty lines with the first one given and nothing in the other slots.
pub fn only_first(line: &str) -> String {
    let rest: String = (1..20).map(|i| format!("{i} - 0\n")).collect();
    format!("{line}\n{rest}")
}

/// A slot with an item.
pub fn slot(item: u16, limit: i16, requirements: &[Requirement]) -> Slot {
    Slot {
        item: Some(item),
        limit,
        requirements: requirements.to_vec(),
    }
}
