//! Times of one walk for 64 saves beside 64 runs, by the library and by hand without checks, and of a walk for one save beside a run.

use crate::cases::{self, Case};
use crate::clock::{by_turns, row};
use compare::{convert, interpret};
use locustkeno::{LANES, Save, Saves};
use std::hint::black_box;

/// Saves of which each third item, attachment and flag is another.
fn saves(case: &Case) -> Vec<Save> {
    let one = cases::save(&case.sheet);
    (0..LANES)
        .map(|lane| {
            let mut save = one.clone();
            for (place, held) in save.items.iter_mut().enumerate() {
                *held = i16::from((place + lane) % 3 == 0);
            }
            for bits in [&mut save.atcs, &mut save.flags] {
                for (place, bit) in bits.iter_mut().enumerate() {
                    *bit = u8::from((place + lane) % 3 == 0);
                }
            }
            save
        })
        .collect()
}

pub fn case(case: &Case) {
    let sheet = convert::sheet(&case.sheet);
    let many = saves(case);
    for (call, saves) in [("walk64", &many[..]), ("walk1", &many[..1])] {
        let mut alone = saves.to_vec();
        let runs: Vec<_> = alone
            .iter_mut()
            .map(|save| case.script.run(&sheet, 0, save, 4_096))
            .collect();
        let mut flat = Saves::of(&sheet, saves);
        let walk = case
            .script
            .run_saves(&sheet, 0, &mut flat)
            .expect("its links fall");
        assert_eq!(walk.runs, runs, "each save's own run");
        for (lane, save) in alone.iter().enumerate() {
            assert_eq!(
                flat.variables(lane),
                save.variables,
                "each save's own variables"
            );
        }
        let walk =
            |flat: &mut Saves| drop(black_box(case.script.run_saves(&sheet, 0, black_box(flat))));
        let [ours, checked] = by_turns(
            10,
            || Saves::of(&sheet, saves),
            walk,
            || saves.to_vec(),
            |saves| {
                for save in saves {
                    let _ = black_box(case.script.run(&sheet, 0, black_box(save), 4_096));
                }
            },
        );
        row(
            call,
            case.name,
            &[("library, one walk", ours), ("library, runs", checked)],
        );
        let a = case.script.arrays();
        let [ours, unchecked] = by_turns(
            10,
            || Saves::of(&sheet, saves),
            walk,
            || saves.to_vec(),
            |saves| {
                for save in saves {
                    black_box(interpret::run_blocks(a, 0, black_box(save), 4_096));
                }
            },
        );
        row(
            call,
            case.name,
            &[
                ("library, one walk", ours),
                ("Rust, runs, no checks", unchecked),
            ],
        );
    }
}
