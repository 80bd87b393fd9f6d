//! How full a script is, and how many presses are left.

use crate::pressing::Pressing;
use crate::table::{Side, Table, grouped};
use locustkeno::{Loader, Refused, Room, STAGE_BYTES, Shop, Stage};

/// What is used of each limit: blocks, commands, nodes, and the bytes of the file.
fn uses(stage: &Stage) -> Result<[(&'static str, usize, usize); 4], Refused> {
    let Room {
        blocks,
        commands,
        nodes,
    } = stage.script.room();
    Ok([
        ("blocks", blocks.used, blocks.limit),
        ("commands", commands.used, commands.limit),
        ("nodes", nodes.used, nodes.limit),
        ("bytes", stage.write()?.len(), STAGE_BYTES),
    ])
}

/// About how often the shop can still be compiled for the disc: what one compile adds, divided into what is left.
fn disc(stage: &Stage, shop: &Shop) -> Result<usize, Refused> {
    let before = uses(stage)?;
    let mut pressed = stage.clone();
    let compiled = pressed
        .script
        .compile(&stage.sheet, Loader::Disc, stage.setup, shop);
    let Ok(after) = compiled.and_then(|()| uses(&pressed)) else {
        return Ok(0);
    };
    let left = before.into_iter().zip(after).map(|(was, is)| {
        let (_, used, limit) = was;
        limit.saturating_sub(used) / is.1.saturating_sub(used).max(1)
    });
    Ok(left.min().unwrap_or(0))
}

/// How often it can still be compiled for the demo: it is tried, the demo's limits are soon met.
fn demo(stage: &Stage, shop: &Shop) -> usize {
    let mut script = stage.script.clone();
    let mut press = || script.compile(&stage.sheet, Loader::Demo, stage.setup, shop);
    (0..).take_while(|_| press().is_ok()).count()
}

/// About how many presses are left, in words.
pub fn left(stage: &Stage, shop: &Shop) -> Result<String, Refused> {
    let (disc, demo) = (disc(stage, shop)?, demo(stage, shop));
    Ok(format!(
        "presses left, about: {disc} for the disc, {demo} for the demo"
    ))
}

/// How full the script is, and about how many presses are left.
pub fn of(pressing: &Pressing) -> Result<String, Refused> {
    let mut table = Table::new(&[
        ("", Side::Left),
        ("used", Side::Right),
        ("limit", Side::Right),
    ]);
    for (what, used, limit) in uses(&pressing.stage)? {
        table.push([what.into(), grouped(used), grouped(limit)]);
    }
    let left = left(&pressing.stage, &pressing.shop)?;
    Ok(format!("{}{left}\n", table.text()))
}
