//! Times of parse, compile and preview beside the original's parse and compile.

use crate::cases::{self, Case};
use crate::clock::{by_turns, row, time};
use compare::{convert, meaning};
use locustkeno::{Loader, Shop};
use oracle::calls::{self, Original};
use std::cell::RefCell;
use std::hint::black_box;

/// All three, on one script.
pub fn all(case: &Case) {
    calls::use_sheet(&case.sheet);
    parse(case);
    compile(case);
    preview(case);
}

/// Slots come out on both sides: the library's arrays are unpacked in the time that is taken.
fn parse(case: &Case) {
    let sheet = convert::sheet(&case.sheet);
    let original = Original::new(&case.plain);
    let [ours, theirs] = by_turns(
        20,
        || (),
        |()| {
            let shop = case.script.parse(&sheet, 0).expect("it can be parsed");
            black_box(shop.slots());
        },
        || (),
        |()| drop(black_box(original.parse(0))),
    );
    row(
        "parse",
        case.name,
        &[("library, judged first", ours), ("original", theirs)],
    );
}

/// How a script to compile into is come by, and how many of them are compiled into one after the other.
const FRESH: [(&str, usize, bool); 4] = [
    ("compile", 20, true),
    ("compile1", 1, true),
    ("copies", 20, false),
    ("copies1", 1, false),
];

/// Into the case's script, which has room for one shop more. It is read anew into arrays that are kept, or copied with all its
/// arrays: twenty copies of half a megabyte each are more than the processor's nearer caches hold. The original's is made anew.
/// Each side has its shop ready: the library's as a `Shop`, the original's as its slots.
fn compile(case: &Case) {
    let sheet = convert::sheet(&case.sheet);
    let shop = Shop::with_slots(case.slots.iter().map(convert::slot));
    let slots = calls::original_slots(&case.slots);
    for (call, batch, read) in FRESH {
        let scripts = RefCell::new(vec![case.script.clone(); batch]);
        let mut places = (0..batch).cycle();
        let fresh = || {
            let place = places.next().expect("a cycle has no end");
            let script = &mut scripts.borrow_mut()[place];
            match read {
                true => script.read_again(&case.bytes).expect("it is an image"),
                false => *script = case.script.clone(),
            }
            place
        };
        let [ours, theirs] = by_turns(
            batch,
            fresh,
            |place| {
                let script = &mut scripts.borrow_mut()[*place];
                script
                    .compile(&sheet, Loader::Disc, 0, &shop)
                    .expect("it has room")
            },
            || Original::new(&case.plain),
            |script| script.compile(0, &slots),
        );
        row(
            call,
            case.name,
            &[("library, judged first", ours), ("original", theirs)],
        );
    }
}

fn preview(case: &Case) {
    let sheet = convert::sheet(&case.sheet);
    let shop = Shop::with_slots(case.slots.iter().map(convert::slot));
    let save = cases::save(&case.sheet);
    let ours = time(
        200,
        || (),
        |()| {
            let _ = black_box(shop.preview(&sheet, &save));
        },
    );
    let theirs = time(
        200,
        || (),
        |()| drop(black_box(meaning::meaning(&case.sheet, &case.slots, &save))),
    );
    row(
        "preview",
        case.name,
        &[("library", ours), ("Rust, not checked", theirs)],
    );
}
