//! Times the proved library beside the Rust sides, on the same inputs: microseconds a call, the
//! best and the median of 31 rounds. With the word `worst` only the slowest inputs that were found, with `lanes` only walks for
//! many saves, with `shopper` only shoppers.

mod by_hand;
mod cases;
mod clock;
mod lanes;
mod place;
mod program;
mod reclaim;
mod shopper;
mod shops;
mod worst;

use cases::Case;
use clock::{Times, by_turns, row, time};
use compare::{convert, interpret};
use locustkeno::Script;
use oracle::image;
use std::hint::black_box;

/// How many places a long run's arrays are tried in.
const PLACES: usize = 24;

fn main() {
    place::hold();
    println!(
        "{:8} {:12} {:28} {:>10} {:>10}",
        "call", "script", "side", "best us", "median us"
    );
    let word = std::env::args().nth(1);
    if word.as_deref() == Some("lanes") {
        cases::all().iter().for_each(lanes::case);
        return;
    }
    if word.as_deref() == Some("shopper") {
        return shopper::all();
    }
    if word.is_none_or(|word| word != "worst") {
        ordinary();
    }
    println!("-- hiding blocks under one large condition");
    worst::all();
    program::worst();
}

/// What users do, on scripts of four sizes and after a reclaim, and a run of many blocks.
fn ordinary() {
    for case in cases::all() {
        let a = case.script.arrays();
        println!(
            "-- {}: {} blocks, {} commands, {} nodes, {} bytes",
            case.name,
            a.blocks,
            a.commands,
            a.nodes,
            case.bytes.len()
        );
        read(&case);
        write(&case);
        run(&case);
        shops::all(&case);
        reclaim::case(&case);
        lanes::case(&case);
        program::case(&case);
    }
    reclaim::after();
    println!("-- a loop of two blocks, entered 100,000 times in all");
    long_run();
    println!("-- a thousand steps in one call");
    shopper::all();
}

fn read(case: &Case) {
    let ours = time(
        40,
        || (),
        |()| drop(black_box(Script::read(black_box(&case.bytes)))),
    );
    let theirs = time(
        40,
        || (),
        |()| drop(black_box(image::read(black_box(&case.bytes)))),
    );
    let mut script = Script::empty();
    let again = time(
        40,
        || (),
        |()| {
            script
                .read_again(black_box(&case.bytes))
                .expect("it is an image")
        },
    );
    let sides = [
        ("library, new arrays", ours),
        ("Rust, trees", theirs),
        ("library, arrays kept", again),
    ];
    row("read", case.name, &sides);
}

fn write(case: &Case) {
    let ours = time(
        40,
        || (),
        |()| drop(black_box(black_box(&case.script).write())),
    );
    let theirs = time(
        40,
        || (),
        |()| drop(black_box(image::write(black_box(&case.plain)))),
    );
    row(
        "write",
        case.name,
        &[
            ("library, judged first", ours),
            ("Rust, trees, not judged", theirs),
        ],
    );
}

/// A run that only its budget ends, so that its checks take no part. It is timed with its arrays in several places, and so at
/// several times, of which the one with the median ratio is kept.
fn long_run() {
    let mut placed: Vec<[Times; 2]> = (0..PLACES).map(placed_run).collect();
    placed.sort_by(|a, b| ratio(a).total_cmp(&ratio(b)));
    let [ours, theirs] = placed[PLACES / 2];
    row("run", "loop", &[("library", ours), ("Rust", theirs)]);
    let ratios: Vec<String> = placed.iter().map(|p| format!("{:.2}", ratio(p))).collect();
    println!("ratios by place: {}", ratios.join(" "));
}

fn ratio([ours, theirs]: &[Times; 2]) -> f64 {
    ours.best / theirs.best
}

/// The same run with its arrays in another place: those of the runs before stay where they are.
fn placed_run(place: usize) -> [Times; 2] {
    std::mem::forget(vec![1u8; 700 * place + 16]);
    let (plain_sheet, plain) = cases::endless();
    let sheet = convert::sheet(&plain_sheet);
    let script = Script::read(&image::write(&plain)).expect("it is a script");
    let save = || cases::save(&plain_sheet);
    let times = by_turns(
        1,
        save,
        |save| {
            let _ = black_box(script.run(&sheet, 0, save, black_box(100_000)));
        },
        save,
        |save| {
            let a = script.arrays();
            black_box(interpret::run(&plain_sheet, a, 0, save, black_box(100_000)));
        },
    );
    std::mem::forget(script);
    times
}

fn run(case: &Case) {
    let sheet = convert::sheet(&case.sheet);
    let save = || cases::save(&case.sheet);
    let a = case.script.arrays();
    let [ours, theirs] = by_turns(
        200,
        save,
        |save| {
            let _ = black_box(case.script.run(&sheet, 0, save, black_box(82)));
        },
        save,
        |save| {
            black_box(interpret::run(&case.sheet, a, 0, save, black_box(82)));
        },
    );
    let alone = time(200, save, |save| {
        black_box(interpret::run_blocks(a, 0, save, black_box(82)));
    });
    let sides = [
        ("library, all checks", ours),
        ("Rust, same checks", theirs),
        ("Rust, no checks", alone),
    ];
    row("run", case.name, &sides);
}
