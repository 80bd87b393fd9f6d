//! Records whose kept counts are one too small, one too large or past their limits, with garbage past what they hold.

use crate::tally::Tally;
use crate::{convert, judge, saves};
use locustkeno::{Arrays, Loader, Script, Shop};
use oracle::image;
use oracle::plain::Sheet;
use record::parse_cases;
use record::random::Random;

/// A word of any kind: a code, a number that is near the counts, or far off.
fn word(random: &mut Random, a: &Arrays) -> u16 {
    let any = u16::from_le_bytes([random.byte(), random.byte()]);
    random.pick(&[0, 1, 2, 11, 19, a.nodes, a.commands, a.blocks, any])
}

/// Words that no count has, from the ends of what is held on.
pub fn litter(random: &mut Random, a: &mut Arrays) {
    for _ in 0..random.between(1, 60) {
        let word = word(random, a);
        let past = random.below(40);
        let places: [(&mut [u16], usize); 3] = [
            (&mut a.ws[..], 3 * usize::from(a.nodes)),
            (&mut a.cw[..], 4 * usize::from(a.commands)),
            (&mut a.bw[..], 5 * usize::from(a.blocks)),
        ];
        for (words, end) in places {
            if let Some(place) = words.get_mut(end + past) {
                *place = word;
            }
        }
    }
}

/// One kept count, or both, a little off or past its limit.
pub fn recount(random: &mut Random, a: &mut Arrays) {
    let off = |count: u16, by: i32| u16::try_from(i32::from(count) + by).unwrap_or(count);
    let by = random.pick(&[-1, -1, -1, -2, 1, 1]);
    match random.below(8) {
        0..=2 => a.nodes = off(a.nodes, by),
        3..=5 => a.commands = off(a.commands, by),
        6 => (a.nodes, a.commands) = (off(a.nodes, by), off(a.commands, by)),
        _ => (a.nodes, a.commands) = random.pick(&[(32_769, 0), (0, 16_385), (0, 0), (1, 1)]),
    }
}

/// What every call on a record says of it: nothing where it is judged fine, else the same refusal, and nothing is changed.
fn check(tally: &mut Tally, random: &mut Random, sheet: &Sheet, setup: u32, a: &Arrays) {
    let judged = judge::judge(a).err().map(|refusal| refusal.0);
    let mut script = Script::from_arrays(a.clone());
    let case = || {
        let counts = (a.nodes, a.commands, a.blocks);
        format!("kept {counts:?}, blocks {:?}", &a.bw[..40])
    };
    let written = script.write().err().map(|refused| refused.number());
    tally.count("recounted", written.unwrap_or(0));
    tally.same("write of a recounted record", &written, &judged, case);
    if judged.is_none() {
        return;
    }
    let sheet_of = convert::sheet(sheet);
    let mut save = saves::save(random, sheet);
    let answers = [
        script.run(&sheet_of, setup, &mut save, 9).refusal,
        script.parse(&sheet_of, setup).err(),
        script
            .compile(&sheet_of, Loader::Disc, setup, &Shop::with_slots([]))
            .err(),
    ]
    .map(|refused| refused.map(|refused| refused.number()));
    tally.same("calls on a recounted record", &answers, &[judged; 3], case);
    tally.same("a refused record", script.arrays(), a, case);
}

/// Scripts as they were read: their counts are what their blocks hold, so that one less is 3 and one more changes nothing.
pub fn random(tally: &mut Tally, random: &mut Random, count: usize) {
    for index in 0..count {
        let input = parse_cases::whole(random, index % 8);
        let Ok(script) = Script::read(&image::write(&input.script)) else {
            continue;
        };
        let mut a = script.arrays().clone();
        let held = (a.nodes, a.commands);
        litter(random, &mut a);
        recount(random, &mut a);
        let under = a.nodes < held.0 || a.commands < held.1;
        let over = a.nodes > 32_768 || a.commands > 16_384;
        let refused = judge::judge(&a).err().map(|refusal| refusal.0);
        let expected = (under || over).then_some(3);
        tally.same("a count that is off", &refused, &expected, || {
            format!("input {input:?}")
        });
        check(tally, random, &input.sheet, input.setup, &a);
    }
}
