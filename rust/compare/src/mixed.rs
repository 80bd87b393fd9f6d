//! Lists that mix compiles and reclaims at any blocks: setup blocks that are left run and read as their last shop, other blocks of
//! the start are as they were.

use crate::shops::{self, Both};
use crate::survivors::{self, Numbers};
use crate::tally::Tally;
use crate::{reclaim, tree};
use locustkeno::{Loader, Moved};
use oracle::image::BLOCKS;
use oracle::plain::{Block, Code, SLOTS, Script, Sheet, Slot};
use record::make::{self, Maker};
use record::random::Random;

/// A script in use on both sides, with what a list of compiles and reclaims has to leave of it.
struct List {
    sheet: Sheet,
    both: Both,
    /// The last shop accepted at each setup block that is left, by its number now.
    last: Vec<(u32, Vec<Slot>)>,
    /// Every block of the start that is left and was not compiled at, by its number then.
    start: Vec<(usize, Block)>,
    /// The number now of every block of the start that is left.
    numbers: Numbers,
}

impl List {
    fn new(random: &mut Random) -> Self {
        let sheet = make::sheet(random);
        let blocks = random.between(1, 6);
        let mut maker = Maker {
            random,
            sheet: sheet.clone(),
            blocks,
        };
        let before = maker.script();
        let both = if random.once_in(2) {
            shops::marked(random, &before)
        } else {
            shops::read(&before)
        };
        Self {
            sheet,
            both,
            last: Vec::new(),
            start: before.blocks.into_iter().enumerate().collect(),
            numbers: (0..blocks).map(|block| (block, block)).collect(),
        }
    }

    /// A block number, mostly that of a block of the start.
    fn block(&self, random: &mut Random) -> u32 {
        let blocks = self.both.0.blocks();
        let of_start: Vec<usize> = self.numbers.values().copied().collect();
        match random.below(12) {
            0 => random.pick(&[blocks as u32, u32::MAX]),
            1..=2 => random.below(blocks.max(1)) as u32,
            _ if of_start.is_empty() => 0,
            _ => random.pick(&of_start) as u32,
        }
    }

    fn compile(&mut self, tally: &mut Tally, random: &mut Random) {
        let setup = self.block(random);
        let mut maker = Maker {
            random,
            sheet: self.sheet.clone(),
            blocks: 1,
        };
        let slots = if maker.random.once_in(10) {
            maker.doubtful_shop()
        } else {
            maker.shop()
        };
        let loader = maker.random.pick(&[Loader::Disc, Loader::Demo]);
        let (ours, theirs) = &mut self.both;
        if !shops::check_compile(tally, &self.sheet, ours, theirs, loader, setup, &slots) {
            return;
        }
        self.last.retain(|(at, _)| *at != setup);
        self.last.push((setup, slots));
        let numbers = &self.numbers;
        self.start
            .retain(|(block, _)| numbers[block] != setup as usize);
    }

    /// Mostly the setup blocks are among the roots.
    fn roots(&self, random: &mut Random) -> Vec<u32> {
        if random.once_in(3) {
            return reclaim::roots(random, self.both.0.blocks());
        }
        let mut roots: Vec<u32> = (0..random.below(3)).map(|_| self.block(random)).collect();
        for (setup, _) in &self.last {
            if !random.once_in(6) {
                roots.push(*setup);
            }
        }
        roots
    }

    fn reclaim(&mut self, tally: &mut Tally, random: &mut Random, full: &Moved) {
        let roots = self.roots(random);
        let before = self.both.0.clone();
        let Some((left, numbers)) = reclaim::check(tally, full, &mut self.both.0, &roots) else {
            return;
        };
        reclaim::check_survivors(
            tally,
            random,
            &self.sheet,
            [&before, &self.both.0],
            &numbers,
        );
        self.both.1 = left;
        let new = |block: &usize| numbers.get(block).copied();
        self.last = std::mem::take(&mut self.last)
            .into_iter()
            .filter_map(|(at, slots)| Some((new(&(at as usize))? as u32, slots)))
            .collect();
        self.numbers = std::mem::take(&mut self.numbers)
            .into_iter()
            .filter_map(|(block, at)| Some((block, new(&at)?)))
            .collect();
        let numbers = &self.numbers;
        self.start.retain(|(block, _)| numbers.contains_key(block));
    }

    /// "Each surviving setup block running and reading as its last shop, under its new number; every other surviving block of
    /// the start is as it was but for its number and the links that follow".
    fn check(&self, tally: &mut Tally, random: &mut Random) {
        let (ours, theirs) = &self.both;
        let last: Vec<(u32, &[Slot])> = self.last.iter().map(|(at, s)| (*at, &s[..])).collect();
        shops::check_last(tally, random, &self.sheet, (ours, theirs), &last);
        let blocks = tree::script(ours.arrays()).blocks;
        for (block, was) in &self.start {
            tally.count("block of the start", 0);
            let expected = survivors::renamed(was, &self.numbers);
            let at = self.numbers[block];
            let (is, expected) = (blocks.get(at), Some(&expected));
            tally.same("block of the start", &is, &expected, || {
                format!("block {block} is {at} now, numbers {:?}", self.numbers)
            });
        }
    }
}

/// Random lists that mix compiles and reclaims.
pub fn lists(tally: &mut Tally, random: &mut Random, count: usize) {
    let full = reclaim::full_table();
    for _ in 0..count {
        let mut list = List::new(random);
        for _ in 0..random.between(1, 7) {
            if random.once_in(3) {
                list.reclaim(tally, random, &full);
            } else {
                list.compile(tally, random);
            }
            list.check(tally, random);
        }
    }
}

/// Scripts that dead shops fill: one compile more is 9, and after a reclaim it is not.
pub fn filled(tally: &mut Tally, random: &mut Random) {
    let full = reclaim::full_table();
    for _ in 0..3 {
        let sheet = make::sheet(random);
        let mut maker = Maker {
            random,
            sheet: sheet.clone(),
            blocks: 1,
        };
        let slots: Vec<Slot> = (0..SLOTS).map(|_| maker.slot()).collect();
        let blocks = vec![Block::Code(Code::default())];
        let (mut ours, mut theirs) = shops::read(&Script { blocks });
        // A shop has 21 blocks and more, so that the answers end.
        let disc = Loader::Disc;
        (0..BLOCKS)
            .all(|_| shops::check_compile(tally, &sheet, &mut ours, &mut theirs, disc, 0, &slots));
        (theirs, _) = reclaim::check(tally, &full, &mut ours, &[0]).expect("block 0 is one");
        let fits = shops::check_compile(tally, &sheet, &mut ours, &mut theirs, disc, 0, &slots);
        let case = || format!("sheet {sheet:?}, shop {slots:?}");
        tally.same("compile after a reclaim", &fits, &true, case);
        shops::check_last(tally, random, &sheet, (&ours, &theirs), &[(0, &slots)]);
    }
}
