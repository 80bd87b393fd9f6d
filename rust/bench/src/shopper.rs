//! Times of a thousand steps of a shopper in one call.

use crate::clock::{Times, row, time};
use locustkeno::{
    Item, Loader, Requirement, Save, Script, Sheet, Shop, Shopper, Slot, Tariff, WISHES,
};
use std::hint::black_box;

/// Slots of different items, each with so many requirements that hold.
fn slots(many: u16, limit: i16, requirements: u16) -> Vec<Slot> {
    let missing = |n| Requirement::MissingItem(Item(100 + n));
    let slot = |item| Slot {
        item: Some(Item(3 + item)),
        limit,
        requirements: (0..requirements).map(missing).collect(),
    };
    (0..many).map(slot).collect()
}

/// Slots of Timer5, which take the most blocks, each with as many requirements as a slot may have, none of which fails.
fn timers() -> Vec<Slot> {
    let slot = |slot: Slot| Slot {
        item: Some(Item(0)),
        ..slot
    };
    slots(20, 1, 14).into_iter().map(slot).collect()
}

/// What it costs that each step judges the script: runs at a block that is not there, which 6 refuses.
fn judged(sheet: &Sheet, shop: &Shop) -> Times {
    let mut script = Script::read(&[1, 1, 1, 0, 0, 0]).expect("a Return block is a script");
    script
        .compile(sheet, Loader::Disc, 0, shop)
        .expect("there is room");
    let mut save = Save::new(sheet);
    time(
        3,
        || (),
        |()| {
            for _ in 0..WISHES {
                let _ = black_box(script.run(sheet, u32::MAX, &mut save, 82));
            }
        },
    )
}

/// The wishes go round the slots.
pub fn all() {
    let sheet = Sheet::new(&[None; 200], 0, [Item(0), Item(1), Item(2)]);
    let tariff = Tariff::new([7; 200], 125);
    let wishes: Vec<u8> = (0..WISHES).map(|i| (i % 20) as u8).collect();
    for (name, slots) in [
        ("empty shop", slots(0, 0, 0)),
        ("20 plain", slots(20, 10, 0)),
        ("20 with 3", slots(20, 10, 3)),
        ("20 with 14", slots(20, 10, 14)),
        ("limit 1, 14", slots(20, 1, 14)),
        ("Timer5, 14", timers()),
    ] {
        let shop = Shop::with_slots(slots);
        let shopper = || Shopper {
            save: Save::new(&sheet),
            money: 1_000_000,
        };
        let times = time(3, shopper, |shopper| {
            drop(black_box(shopper.shop(&sheet, &shop, &tariff, &wishes)))
        });
        let sides = [
            ("library, 1,000 steps", times),
            ("1,000 judgements of it", judged(&sheet, &shop)),
        ];
        row("shopper", name, &sides);
    }
}
