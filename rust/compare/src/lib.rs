//! The proved library held against the original, against a hand-written interpreter and against
//! document 01's meaning of a shop, on the same inputs.

pub mod bill;
pub mod checks;
pub mod convert;
pub mod images;
pub mod interpret;
pub mod judge;
pub mod lanes;
pub mod meaning;
pub mod mixed;
pub mod moves;
pub mod reclaim;
pub mod recounted;
pub mod rights;
pub mod runs;
pub mod saves;
pub mod settings;
pub mod shared;
pub mod shopper;
pub mod shops;
pub mod small;
pub mod survivors;
pub mod tally;
pub mod tree;

use record::random::Random;
use tally::Tally;

/// Everything that can be compared, from a seed; `longest` and `small` are said in `main.rs`.
pub fn all(seed: u64, count: usize, longest: usize, small: bool) -> Tally {
    let mut tally = Tally::default();
    let mut random = Random::new(seed);
    images::exhaustive(&mut tally, longest);
    images::limits(&mut tally);
    images::numbers(&mut tally);
    images::random(&mut tally, &mut random, count);
    runs::random(&mut tally, &mut random, count);
    runs::records(&mut tally, &mut random, count);
    recounted::random(&mut tally, &mut random, count);
    shared::limits(&mut tally, &mut random);
    shared::random(&mut tally, &mut random, count);
    runs::compiled(&mut tally, &mut random, count);
    shops::all(&mut tally, &mut random, count);
    if small {
        runs::small(&mut tally, &mut random);
        shops::small(&mut tally);
    }
    runs::operators(&mut tally, &mut random);
    reclaimed(&mut tally, &mut random, count);
    rights::lists(&mut tally, &mut random, count / 4);
    billed(&mut tally, &mut random, count);
    settings::random(&mut tally, &mut random, count);
    moves::random(&mut tally, &mut random, count);
    lanes::random(&mut tally, &mut random, count);
    shopper::random(&mut tally, &mut random, count);
    checks::random(&mut tally, &mut random, count);
    tally
}

/// Settings of slots alone.
pub fn settings(seed: u64, count: usize) -> Tally {
    let mut tally = Tally::default();
    settings::random(&mut tally, &mut Random::new(seed), count);
    tally
}

/// Checks of shops alone.
pub fn checks(seed: u64, count: usize) -> Tally {
    let mut tally = Tally::default();
    checks::random(&mut tally, &mut Random::new(seed), count);
    tally
}

/// Walks for many saves alone.
pub fn walks(seed: u64, count: usize) -> Tally {
    let mut tally = Tally::default();
    lanes::random(&mut tally, &mut Random::new(seed), count);
    tally
}

/// Parses and lists of compiles alone, ten parses for each list.
pub fn shops(seed: u64, count: usize) -> Tally {
    let mut tally = Tally::default();
    let mut random = Random::new(seed);
    shops::parses(&mut tally, &mut random, 10 * count);
    shops::lists(&mut tally, &mut random, count);
    tally
}

/// Reclaims alone.
pub fn reclaims(seed: u64, count: usize) -> Tally {
    let mut tally = Tally::default();
    reclaimed(&mut tally, &mut Random::new(seed), count);
    tally
}

/// Edits and shows alone.
pub fn edits(seed: u64, count: usize) -> Tally {
    let mut tally = Tally::default();
    rights::lists(&mut tally, &mut Random::new(seed), count);
    tally
}

/// Bills alone.
pub fn bills(seed: u64, count: usize) -> Tally {
    let mut tally = Tally::default();
    billed(&mut tally, &mut Random::new(seed), count);
    tally
}

/// Shoppers alone.
pub fn shoppers(seed: u64, count: usize) -> Tally {
    let mut tally = Tally::default();
    shopper::random(&mut tally, &mut Random::new(seed), count);
    tally
}

fn billed(tally: &mut Tally, random: &mut Random, count: usize) {
    bill::random(tally, random, count);
    bill::after_runs(tally, random, count);
}

/// Small moves alone.
pub fn moves(seed: u64, count: usize) -> Tally {
    let mut tally = Tally::default();
    moves::random(&mut tally, &mut Random::new(seed), count);
    tally
}

fn reclaimed(tally: &mut Tally, random: &mut Random, count: usize) {
    reclaim::limits(tally, random);
    reclaim::random(tally, random, count);
    reclaim::records(tally, random, count);
    mixed::filled(tally, random);
    mixed::lists(tally, random, count);
}
