//! Stages of the safe crate held against the oracle's whole program `slots`: cut, changed and random files.

use locustkeno::Stage;
use oracle::{calls, slots};
use record::random::Random;
use std::fs;

/// What `slots` would print, by the safe crate: the stage read, its shop parsed and printed.
fn printed(bytes: &[u8]) -> String {
    let shop = Stage::read(bytes).and_then(|stage| stage.script.parse(&stage.sheet, stage.setup));
    match shop {
        Ok(shop) => shop.to_string(),
        Err(refused) => format!("refused {}\n", refused.number()),
    }
}

/// The same refusal or the same lines, and what is read is written as it was.
fn same(bytes: &[u8]) {
    let answer = slots::answer(bytes);
    assert_eq!(printed(bytes), slots::print(&answer), "{bytes:02x?}");
    let read = Stage::read(bytes);
    let theirs = slots::read(bytes);
    assert_eq!(
        read.as_ref().err().map(|refused| refused.number()),
        theirs.as_ref().err().map(|refusal| refusal.0),
        "{bytes:02x?}"
    );
    if let Ok(stage) = read {
        assert_eq!(stage.write().as_deref(), Ok(bytes));
    }
}

fn sample(name: &str) -> Vec<u8> {
    let folder = concat!(env!("CARGO_MANIFEST_DIR"), "/../../samples/");
    fs::read(format!("{folder}{name}")).expect("the sample is there")
}

fn cut(bytes: &[u8]) {
    for length in 0..=bytes.len() {
        same(&bytes[..length]);
    }
}

/// Every value at every place of the bytes given.
fn each_byte(bytes: &[u8], places: usize) {
    for place in 0..places {
        let mut changed = bytes.to_vec();
        for value in 0..=255 {
            changed[place] = value;
            same(&changed);
        }
    }
}

#[test]
fn cut_and_changed() {
    let all = || {
        let worked = sample("worked.bin");
        cut(&worked);
        each_byte(&worked, worked.len());
        let shop = sample("shop.bin");
        cut(&shop);
        // The heading of that sample, and the first bytes of its image.
        each_byte(&shop, 24);
    };
    calls::on_large_stack(all).expect("nothing panics");
}

/// Headings of numbers near their limits, before the worked sample's image.
#[test]
fn random_headings() {
    let all = || {
        let mut random = Random::new(34);
        let worked = sample("worked.bin");
        for _ in 0..20_000 {
            let items = random.pick(&[2, 3, 3, 4, 5, 8]);
            let atcs = random.pick(&[0, 1, 2, 64, 65]);
            let mut bytes = vec![items, atcs];
            for _ in 0..items {
                bytes.push(random.below(usize::from(atcs).min(3) + 1) as u8);
            }
            for _ in 0..3 {
                bytes.push(random.below(usize::from(items)) as u8);
            }
            bytes.extend(random.pick(&[
                &[0][..],
                &[1],
                &[0x80, 1],
                &[0x80, 0],
                &[255, 255, 255, 255, 15],
            ]));
            bytes.extend(&worked[10..]);
            same(&bytes);
        }
    };
    calls::on_large_stack(all).expect("nothing panics");
}

#[test]
fn too_long() {
    for length in [slots::INPUT, slots::INPUT + 1] {
        let mut bytes = sample("worked.bin");
        bytes.resize(length, 0);
        same(&bytes);
        same(&vec![0; length]);
    }
}
