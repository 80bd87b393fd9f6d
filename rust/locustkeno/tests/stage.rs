//! Stages as files: read, written, and what is refused.

use locustkeno::{Atc, Item, Loader, Refusal, Refused, STAGE_BYTES, Script, Sheet, Shop, Stage};
use std::{fs, thread};

const KILOBYTE: usize = 1 << 10;
const READ: usize = 32 * KILOBYTE;
const WRITE: usize = 160 * KILOBYTE;

fn samples() -> Vec<Vec<u8>> {
    let folder = concat!(env!("CARGO_MANIFEST_DIR"), "/../../samples");
    let files = fs::read_dir(folder).expect("the samples are there");
    let paths = files.map(|file| file.expect("a file").path());
    let inputs = paths.filter(|path| path.extension().is_some_and(|end| end == "bin"));
    inputs
        .map(|path| fs::read(path).expect("a sample"))
        .collect()
}

/// One block that returns.
fn script() -> Script {
    Script::read(&[1, 1, 1, 0, 0, 0]).unwrap()
}

fn plain_sheet() -> Sheet {
    Sheet::new(&[None; 3], 0, [Item(0), Item(1), Item(2)])
}

/// The samples read, and are written as they were.
#[test]
fn samples_come_back() {
    let samples = samples();
    assert!(samples.len() >= 2);
    for bytes in samples {
        let stage = Stage::read(&bytes).unwrap();
        assert_eq!(stage.write().unwrap(), bytes);
        assert!(stage.script.parse(&stage.sheet, stage.setup).is_ok());
    }
}

/// A number below `end` out of a state that is turned over at each call.
fn below(state: &mut u64, end: u64) -> u64 {
    *state = state
        .wrapping_mul(6_364_136_223_846_793_005)
        .wrapping_add(1_442_695_040_888_963_407);
    (*state >> 33) % end
}

/// A sheet that passes check 1, from 3 to 512 items and from 0 to 64 attachments.
fn any_sheet(state: &mut u64) -> Sheet {
    let items = 3 + below(state, 510);
    let atcs = below(state, 65);
    let entries: Vec<Option<Atc>> = (0..items)
        .map(|_| below(state, atcs + 1).checked_sub(1))
        .map(|atc| atc.map(|a| Atc(a as u16)))
        .collect();
    let first = below(state, items);
    let timers = [0, 1, 2].map(|k| Item(((first + k * (items / 3)) % items) as u16));
    Sheet::new(&entries, atcs as u16, timers)
}

/// Whatever the sheet, the setup number and the script are: what is written reads back, and is written the same again.
#[test]
fn any_stage_comes_back() {
    let mut state = 34;
    let mut compiled = script();
    let shop = Shop::with_slots([]);
    compiled
        .compile(&plain_sheet(), Loader::Disc, 0, &shop)
        .unwrap();
    // Birth marks are not in a file.
    compiled = Script::read(&compiled.write().unwrap()).unwrap();
    for round in 0..500 {
        let stage = Stage {
            sheet: any_sheet(&mut state),
            setup: (below(&mut state, 1 << 32) >> below(&mut state, 33)) as u32,
            script: [&compiled, &Script::default()][round % 2].clone(),
        };
        let bytes = stage.write().unwrap();
        let again = Stage::read(&bytes).unwrap();
        assert_eq!(again, stage);
        assert_eq!(again.write().unwrap(), bytes);
    }
}

/// Each number at both ends of its range, and just past them.
#[test]
fn sheets_at_their_limits() {
    let written = |items: usize, atcs, last, timers: [u16; 3]| -> Result<usize, Refused> {
        let mut entries = vec![None; items];
        entries[items - 1] = last;
        let sheet = Sheet::new(&entries, atcs, timers.map(Item));
        let stage = Stage {
            sheet,
            setup: u32::MAX,
            script: script(),
        };
        let bytes = stage.write()?;
        assert_eq!(Stage::read(&bytes), Ok(stage));
        Ok(bytes.len())
    };
    assert_eq!(written(3, 0, None, [2, 1, 0]), Ok(2 + 3 + 3 + 5 + 6));
    let largest = written(512, 64, Some(Atc(63)), [511, 128, 127]);
    assert_eq!(largest, Ok(3 + 512 + 5 + 5 + 6));
    for refused in [
        written(2, 0, None, [0, 1, 2]),
        written(513, 0, None, [0, 1, 2]),
        written(512, 65, None, [0, 1, 2]),
        written(512, 64, Some(Atc(64)), [0, 1, 2]),
        written(3, 1, Some(Atc(300)), [0, 1, 2]),
        written(3, 0, None, [0, 1, 3]),
        written(3, 0, None, [0, 1, 1]),
        written(3, 0, None, [1, 1, 0]),
        written(3, 0, None, [1, 0, 1]),
    ] {
        assert_eq!(refused, Err(Refusal::BadSheet.into()));
    }
}

/// A script of so many placeholders.
fn placeholders(count: usize) -> Vec<u8> {
    let mut image = vec![(count % 128) as u8 | 128, (count / 128) as u8];
    image.resize(2 + count, 0);
    image
}

/// A file may have 65,536 bytes. One more is 3 before all else, and a stage that would take more is 16.
#[test]
fn the_longest_file() {
    for bytes in [vec![0; STAGE_BYTES + 1], vec![3; STAGE_BYTES + 1]] {
        assert_eq!(Stage::read(&bytes), Err(Refusal::OverLimit.into()));
    }
    // Of a file of just that length the sheet is looked at: 0 items are too few.
    assert_eq!(
        Stage::read(&vec![0; STAGE_BYTES]),
        Err(Refusal::BadSheet.into())
    );

    // A heading of 9 bytes, a count of 2, blocks of 20 and as many placeholders as there is room left for.
    let blocks = (STAGE_BYTES - 9 - 2) / 20;
    let rest = (STAGE_BYTES - 9 - 2) % 20;
    let image = |more: usize| {
        let mut image = placeholders(blocks + rest + more);
        image.truncate(2);
        for _ in 0..blocks {
            image.extend([1, 4]);
            image.extend([2, 1, 6, 6, 6, 11, 0, 2, 1, 6, 6, 6, 11, 0]);
            image.extend([0, 0, 0, 0]);
        }
        image.resize(image.len() + rest + more, 0);
        image
    };
    let stage = |more| Stage {
        sheet: plain_sheet(),
        setup: 0,
        script: Script::read(&image(more)).unwrap(),
    };
    let bytes = stage(0).write().unwrap();
    assert_eq!(bytes.len(), STAGE_BYTES);
    assert_eq!(Stage::read(&bytes), Ok(stage(0)));
    assert_eq!(stage(1).write(), Err(Refusal::SliceShort.into()));
}

/// A script that is not accepted, and the order of the refusals: 1, then 2 to 5.
#[test]
fn broken_records() {
    let mut arrays = script().arrays().clone();
    arrays.bw[3] = 9;
    let mut stage = Stage {
        sheet: plain_sheet(),
        setup: 0,
        script: Script::from_arrays(arrays),
    };
    assert_eq!(stage.write(), Err(Refusal::NoSuchLink.into()));
    stage.sheet = Sheet::new(&[None; 3], 0, [Item(0), Item(1), Item(3)]);
    assert_eq!(stage.write(), Err(Refusal::BadSheet.into()));
}

/// Bytes left over, a setup number that is cut, and one that is not a block: reading asks nothing of it.
#[test]
fn the_rest_of_the_file() {
    let mut bytes = vec![3, 0, 0, 0, 0, 0, 1, 2];
    assert_eq!(Stage::read(&bytes), Err(Refusal::BadImage.into()));
    bytes.extend([0x80]);
    assert_eq!(Stage::read(&bytes), Err(Refusal::BadImage.into()));
    bytes.extend([1, 0]);
    let stage = Stage::read(&bytes).unwrap();
    assert_eq!((stage.setup, stage.script.blocks()), (128, 0));
    assert_eq!(
        stage.script.parse(&stage.sheet, stage.setup),
        Err(Refusal::NotBlock.into())
    );
    bytes.push(0);
    assert_eq!(Stage::read(&bytes), Err(Refusal::BadImage.into()));
}

/// The largest sheet on threads with just the stack that the header promises to be enough for lk_read and lk_write: the calls for
/// the heading take no more.
#[test]
fn on_small_stacks() {
    let sheet = Sheet::new(&[Some(Atc(63)); 512], 64, [Item(509), Item(510), Item(511)]);
    let stage = Stage {
        sheet,
        setup: u32::MAX,
        script: Script::default(),
    };
    let (kept, bytes) = (stage.clone(), stage.write().unwrap());
    let write = thread::Builder::new().stack_size(WRITE);
    let written = write.spawn(move || stage.write()).unwrap();
    assert_eq!(written.join().unwrap().as_ref(), Ok(&bytes));
    let read = thread::Builder::new().stack_size(READ);
    let back = read.spawn(move || Stage::read(&bytes)).unwrap();
    assert_eq!(back.join().unwrap(), Ok(kept));
}
