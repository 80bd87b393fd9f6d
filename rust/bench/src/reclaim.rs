//! Times of a reclaim beside one by hand that checks nothing, and of the calls after it beside the same on a script that never
//! held dead blocks.

use crate::by_hand;
use crate::cases::{self, Case};
use crate::clock::{Times, by_turns, row};
use compare::convert;
use locustkeno::{Loader, Moved, Script, Shop};
use std::hint::black_box;

/// With block 0 as the only root, into copies of the script: twenty one after the other, and one alone.
pub fn case(case: &Case) {
    let mut by_library = case.script.clone();
    by_library.reclaim(&[0]).expect("block 0 is one");
    let mut by_hand = case.script.arrays().clone();
    by_hand::reclaim(&mut by_hand, &[0]);
    assert!(*by_library.arrays() == by_hand, "both leave the same");
    for (call, batch) in [("reclaim", 20), ("reclaim1", 1)] {
        let mut moved = Moved::default();
        let [ours, theirs] = by_turns(
            batch,
            || case.script.clone(),
            |script| {
                let answer = script.reclaim_into(black_box(&[0]), &mut moved);
                answer.expect("block 0 is one")
            },
            || case.script.arrays().clone(),
            |a| drop(black_box(by_hand::reclaim(a, black_box(&[0])))),
        );
        let sides = [
            ("library, judged first", ours),
            ("Rust, arrays, no checks", theirs),
        ];
        row(call, case.name, &sides);
    }
}

/// Parse, compile and run after a reclaim of 43 shops, beside the script with one.
pub fn after() {
    let [_, one, _, full] = cases::all();
    let mut script = full.script.clone();
    script.reclaim(&[0]).expect("block 0 is one");
    let scripts = [&script, &one.script];
    let [reclaimed, never] = scripts.map(Script::blocks);
    println!("-- 43 shops reclaimed: {reclaimed} blocks, beside one shop: {never} blocks");
    parse(&one, scripts);
    compile(&one, scripts);
    run(&one, scripts);
}

fn beside(call: &str, [reclaimed, one]: [Times; 2]) {
    let sides = [
        ("library, reclaimed", reclaimed),
        ("library, one shop", one),
    ];
    row(call, "reclaimed", &sides);
}

fn parse(case: &Case, [reclaimed, one]: [&Script; 2]) {
    let sheet = convert::sheet(&case.sheet);
    let parse = |script: &Script| {
        let shop = script.parse(&sheet, 0).expect("it can be parsed");
        black_box(shop.slots());
    };
    let times = by_turns(20, || (), |()| parse(reclaimed), || (), |()| parse(one));
    beside("parse", times);
}

fn compile(case: &Case, [reclaimed, one]: [&Script; 2]) {
    let sheet = convert::sheet(&case.sheet);
    let shop = Shop::with_slots(case.slots.iter().map(convert::slot));
    let compile = |script: &mut Script| {
        script
            .compile(&sheet, Loader::Disc, 0, &shop)
            .expect("it has room")
    };
    let times = by_turns(20, || reclaimed.clone(), compile, || one.clone(), compile);
    beside("compile", times);
}

fn run(case: &Case, [reclaimed, one]: [&Script; 2]) {
    let sheet = convert::sheet(&case.sheet);
    let save = || cases::save(&case.sheet);
    let times = by_turns(
        200,
        save,
        |save| {
            let _ = black_box(reclaimed.run(&sheet, 0, save, black_box(82)));
        },
        save,
        |save| {
            let _ = black_box(one.run(&sheet, 0, save, black_box(82)));
        },
    );
    beside("run", times);
}
