//! Random saves, with numbers at and beside every boundary.

use locustkeno::{FLAGS, Save, TIMES, VARIABLES};
use oracle::plain::Sheet;
use record::random::Random;

const COUNTS: [i16; 10] = [0, 0, 0, 1, 1, 2, 5, 10, 11, 32_767];
const TIME: [i16; 10] = [0, 66, 67, 68, 100, 200, 201, -1, 32_767, -32_768];
/// Numbers at and beside the boundaries of variables.
pub const NUMBERS: [i32; 9] = [0, 1, -1, 600, 639, 640, 65_536, i32::MIN, i32::MAX];

/// A save that fits the sheet. The flags and variables that scripts name most are drawn anew.
pub fn save(random: &mut Random, sheet: &Sheet) -> Save {
    let mut save = Save {
        items: (0..sheet.items()).map(|_| random.pick(&COUNTS)).collect(),
        atcs: (0..sheet.atcs).map(|_| random.below(2) as u8).collect(),
        flags: vec![0; FLAGS],
        times: (0..TIMES).map(|_| random.pick(&TIME)).collect(),
        variables: vec![0; VARIABLES],
    };
    for flag in [0, 1, 2, 3, 4, 40, FLAGS - 1] {
        save.flags[flag] = random.below(2) as u8;
    }
    for variable in [0, 1, 599, 600, 619, 620, 639, 640, VARIABLES - 1] {
        save.variables[variable] = random.pick(&NUMBERS);
    }
    save
}

/// Breaks a save in one place, or nearly so.
pub fn break_save(random: &mut Random, save: &mut Save) {
    let place = random.below(save.items.len());
    match random.below(10) {
        0 => save.items[place] = random.pick(&[-1, -32_768, 32_767]),
        1 => save.items.truncate(place),
        2 => save.items.push(0),
        3 => save.atcs.push(0),
        4 => save.atcs.clear(),
        5 => save.atcs.iter_mut().for_each(|bit| *bit = 2),
        6 => save.flags[FLAGS - 1] = random.pick(&[2, 255, 1]),
        7 => save.flags.truncate(FLAGS - random.below(2)),
        8 => save.times.resize(TIMES - 1 + random.below(3), 0),
        _ => save.variables.resize(VARIABLES - 1 + random.below(3), 0),
    }
}
