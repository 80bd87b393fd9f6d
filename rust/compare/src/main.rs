//! Compares the proved library with the other sides and says what was compared.
//!
//! `compare SEED COUNT [LONGEST [small]]` makes COUNT cases of each kind from SEED, and reads every
//! image of at most LONGEST bytes of a small alphabet; with `small` it takes every script of two
//! small blocks too. `compare SEED COUNT KIND` makes cases of one kind alone. It ends with 1 where
//! something differs.
//!
//! - `shops`: COUNT lists of compiles and ten times as many parses
//! - `edits`: COUNT lists of edits by users with rights
//! - `settings`: COUNT slots with all their settings
//! - `checks`: COUNT cases
//! - `walks`: COUNT walks of many saves
//! - `reclaims`: COUNT reclaims of each kind and COUNT lists that mix them with compiles
//! - `shoppers`: COUNT shoppers
//! - `bills`: COUNT bills of saves that were not run and COUNT after runs of compiled shops
//! - `moves`: COUNT shops under two saves, and compiled again

use compare::all;
use compare::tally::Tally;
use oracle::calls;
use std::process::ExitCode;
use std::{env, error::Error};

const USAGE: &str = "usage: compare SEED COUNT [LONGEST [small]], or compare SEED COUNT KIND, KIND being shops, edits, settings, checks, walks, reclaims, shoppers, bills or moves";

fn main() -> Result<ExitCode, Box<dyn Error>> {
    let arguments: Vec<String> = env::args().skip(1).collect();
    let (seed, count, rest) = match &arguments[..] {
        [seed, count, rest @ ..] => (seed.parse()?, count.parse()?, rest),
        _ => return Err(USAGE.into()),
    };
    let rest: Vec<&str> = rest.iter().map(String::as_str).collect();
    let (longest, small) = match rest[..] {
        [] => (3, false),
        ["shops"] => return said(seed, || compare::shops(seed, count)),
        ["edits"] => return said(seed, || compare::edits(seed, count)),
        ["settings"] => {
            println!(
                "slowest slot: {:.2} microseconds",
                compare::settings::slowest()
            );
            return said(seed, || compare::settings(seed, count));
        }
        ["checks"] => return said(seed, || compare::checks(seed, count)),
        ["walks"] => return said(seed, || compare::walks(seed, count)),
        ["reclaims"] => return said(seed, || compare::reclaims(seed, count)),
        ["shoppers"] => return said(seed, || compare::shoppers(seed, count)),
        ["bills"] => return said(seed, || compare::bills(seed, count)),
        ["moves"] => return said(seed, || compare::moves(seed, count)),
        [longest] => (longest.parse()?, false),
        [longest, "small"] => (longest.parse()?, true),
        _ => return Err(USAGE.into()),
    };
    said(seed, || all(seed, count, longest, small))
}

/// Compares, and says what was compared.
fn said(seed: u64, compared: impl FnOnce() -> Tally + Send) -> Result<ExitCode, Box<dyn Error>> {
    let tally = calls::on_large_stack(compared).map_err(|panicked| panicked.0)?;
    print!("seed {seed}\n{}", tally.report());
    Ok(ExitCode::from(u8::from(tally.differences > 0)))
}
