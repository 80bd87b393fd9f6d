//! Lays the original sources, byte for byte, beside our own module tree in the build folder.
//!
//! No line of the original is kept in this repository: `UNPLUG_SRC` says where it is.

use std::collections::BTreeSet;
use std::env;
use std::error::Error;
use std::fs;
use std::path::Path;

/// The original files that are compiled as they stand.
const ORIGINALS: [&str; 10] = [
    "macros.rs",
    "event/block.rs",
    "event/command.rs",
    "event/expr.rs",
    "event/msg.rs",
    "event/pointer.rs",
    "event/script.rs",
    "shop/compiler.rs",
    "shop/mod.rs",
    "shop/parser.rs",
];

/// Our own files of the tree, with their places in it. The last two are the children that
/// script.rs declares and that are looked for beside it.
const OWN: [(&str, &str); 5] = [
    ("tree/root.rs", "tree/root.rs"),
    ("tree/event.rs", "tree/event.rs"),
    ("tree/shop.rs", "tree/shop.rs"),
    ("tree/reader.rs", "original/event/reader.rs"),
    ("tree/writer.rs", "original/event/writer.rs"),
];

/// The enums of opcodes that the original names; their definitions are not among its sources.
const OPCODES: [&str; 4] = ["Atom", "CmdOp", "ExprOp", "MsgOp"];

fn main() -> Result<(), Box<dyn Error>> {
    println!("cargo::rerun-if-env-changed=UNPLUG_SRC");
    let Some(source) = env::var_os("UNPLUG_SRC") else {
        println!(
            "cargo::error=Set UNPLUG_SRC to the full path of the folder of the unplug sources \
             that holds shop/, event/ and macros.rs."
        );
        return Ok(());
    };
    let out = env::var_os("OUT_DIR").ok_or("cargo gives OUT_DIR")?;
    let out = Path::new(&out);
    for folder in ["tree", "original/event", "original/shop"] {
        fs::create_dir_all(out.join(folder))?;
    }
    let mut text = String::new();
    for name in ORIGINALS {
        let file = Path::new(&source).join(name);
        println!("cargo::rerun-if-changed={}", file.display());
        let bytes = fs::read(&file).map_err(|e| format!("{}: {e}", file.display()))?;
        text += std::str::from_utf8(&bytes)?;
        fs::write(out.join("original").join(name), bytes)?;
    }
    for (from, to) in OWN {
        println!("cargo::rerun-if-changed={from}");
        fs::write(out.join(to), fs::read(from)?)?;
    }
    let enums: String = OPCODES
        .iter()
        .map(|name| opcode_enum(name, &text))
        .collect();
    fs::write(out.join("tree/opcodes.rs"), enums)?;
    Ok(())
}

/// An enum of all the variants that the original names of `name`.
///
/// The originals match on these enums without a catch-all, so what they name is what there is.
fn opcode_enum(name: &str, text: &str) -> String {
    let path = format!("{name}::");
    let mut variants = BTreeSet::new();
    for (at, _) in text.match_indices(&path) {
        let is_word = |c: char| c.is_alphanumeric() || c == '_';
        // `Atom::` is also the end of a longer word, if there is one.
        if text[..at].ends_with(is_word) {
            continue;
        }
        let rest = &text[at + path.len()..];
        let word: String = rest.chars().take_while(|&c| is_word(c)).collect();
        let content = if rest[word.len()..].starts_with('(') {
            "(u8)"
        } else {
            ""
        };
        variants.insert(format!("{word}{content}"));
    }
    let list: String = variants.iter().map(|v| format!("    {v},\n")).collect();
    format!("#[derive(Debug, Copy, Clone, PartialEq, Eq)]\npub enum {name} {{\n{list}}}\n\n")
}
