//! Random sheets, expressions, scripts and shops, with numbers at and beside every boundary.

use crate::random::Random;
use oracle::plain::{Binary, Block, Code, Command, Expr, Requirement, Script, Sheet, Slot, Target};
use oracle::plain::{ENTRIES, SLOTS, Unary};

/// The six comparisons.
const COMPARISONS: [Binary; 6] = [
    Binary::Equal,
    Binary::NotEqual,
    Binary::Less,
    Binary::LessEqual,
    Binary::Greater,
    Binary::GreaterEqual,
];

/// The other kinds with two operands.
const JOINS: [Binary; 4] = [Binary::BitAnd, Binary::BitOr, Binary::Add, Binary::Subtract];

const READS: [Unary; 6] = [
    Unary::Not,
    Unary::Flag,
    Unary::Variable,
    Unary::Item,
    Unary::Atc,
    Unary::Time,
];

/// Variables at the edges of the shop's two ranges, and the same ones a whole 16 bits away.
const TARGETS: [i32; 12] = [
    0, 1, 599, 600, 619, 620, 639, 640, -1, 66_136, 66_156, -64_936,
];

/// Values at the edges of 16 and 32 bits.
const VALUES: [i32; 16] = [
    -1,
    0,
    1,
    2,
    10,
    11,
    255,
    32_767,
    32_768,
    -32_768,
    -32_769,
    65_535,
    65_536,
    65_537,
    i32::MIN,
    i32::MAX,
];

const LIMITS: [i16; 11] = [-32_768, -1, 0, 1, 1, 2, 3, 9, 10, 11, 32_767];

/// Makes records that fit together: ids by a sheet, links by a count of blocks.
pub struct Maker<'r> {
    pub random: &'r mut Random,
    pub sheet: Sheet,
    pub blocks: usize,
}

/// A small sheet, now and then one of the largest.
pub fn sheet(random: &mut Random) -> Sheet {
    let largest = random.once_in(150);
    let items = if largest { 512 } else { random.between(3, 9) };
    let atcs = if largest { 64 } else { random.below(4) as u16 };
    let mut atc_of = vec![None; items];
    for atc in &mut atc_of {
        if atcs > 0 && random.once_in(3) {
            *atc = Some(random.below(atcs.into()) as u16);
        }
    }
    let mut ids: Vec<u16> = (0..items as u16).collect();
    let timers = [(); 3].map(|()| ids.swap_remove(random.below(ids.len())));
    Sheet {
        atc_of,
        atcs,
        timers,
    }
}

impl Maker<'_> {
    /// A constant of either width, where it fits.
    pub fn constant(&mut self, value: i32) -> Expr {
        match i16::try_from(value) {
            Ok(small) if !self.random.once_in(3) => Expr::Imm16(small),
            _ => Expr::Imm32(value),
        }
    }

    /// A number that is an id below `count`, is next to one, or becomes one when cut to 16 bits.
    fn id(&mut self, count: usize) -> i32 {
        let inside = if count == 0 {
            0
        } else {
            self.random.below(count) as i32
        };
        match self.random.below(16) {
            0 => count as i32,
            1 => -1,
            2 => 65_536 + inside,
            3 => inside - 65_536,
            4 => self.random.pick(&VALUES),
            5 => count as i32 - 1,
            _ => inside,
        }
    }

    /// A flag number, mostly one of a few so that they meet again.
    fn flag(&mut self) -> i32 {
        match self.random.below(10) {
            0 => self.random.pick(&VALUES),
            1 => self.random.pick(&[2_047, 2_048, 65_536, 65_537, -65_535]),
            _ => self.random.below(5) as i32,
        }
    }

    /// A read of an item, attachment or flag.
    fn test(&mut self) -> Expr {
        let (kind, number) = match self.random.below(4) {
            0 => (Unary::Item, self.id(self.sheet.items())),
            1 => (Unary::Atc, self.id(self.sheet.atcs.into())),
            _ => (Unary::Flag, self.flag()),
        };
        let number = self.constant(number);
        Expr::unary(kind, number)
    }

    fn comparison(&mut self, inner: Expr) -> Expr {
        let kind = self.random.pick(&COMPARISONS);
        let zero = if self.random.once_in(8) {
            self.random.pick(&VALUES)
        } else {
            0
        };
        let zero = self.constant(zero);
        if self.random.once_in(10) {
            Expr::binary(kind, zero, inner)
        } else {
            Expr::binary(kind, inner, zero)
        }
    }

    /// What an If may test, at most `depth` joins deep.
    pub fn condition(&mut self, depth: usize) -> Expr {
        if depth == 0 {
            return self.test();
        }
        match self.random.below(10) {
            0..=2 => self.test(),
            3..=4 => {
                let inner = self.condition(depth - 1);
                self.comparison(inner)
            }
            5 => Expr::unary(Unary::Not, self.condition(depth - 1)),
            6..=8 => {
                let kind = self
                    .random
                    .pick(&[Binary::BitAnd, Binary::BitAnd, Binary::BitOr]);
                Expr::binary(kind, self.condition(depth - 1), self.condition(depth - 1))
            }
            _ => self.any(depth - 1),
        }
    }

    /// Any expression at all.
    pub fn any(&mut self, depth: usize) -> Expr {
        let leaf = depth == 0 || self.random.once_in(2);
        match self.random.below(if leaf { 3 } else { 8 }) {
            0 => Expr::Other,
            1 => {
                let value = self.random.pick(&TARGETS);
                self.constant(value)
            }
            2 => {
                let value = self.random.pick(&VALUES);
                self.constant(value)
            }
            3..=5 => Expr::unary(self.random.pick(&READS), self.any(depth - 1)),
            6 => {
                let kind = self.random.pick(&COMPARISONS);
                Expr::binary(kind, self.any(depth - 1), self.any(depth - 1))
            }
            _ => {
                let kind = self.random.pick(&JOINS);
                Expr::binary(kind, self.any(depth - 1), self.any(depth - 1))
            }
        }
    }

    /// Some block's number.
    pub fn block(&mut self) -> usize {
        self.random.below(self.blocks)
    }

    fn link(&mut self) -> Option<usize> {
        if self.random.once_in(4) {
            None
        } else {
            Some(self.block())
        }
    }

    fn set(&mut self, variable: i32, value: Expr) -> Command {
        Command::Set(Target::Variable(self.constant(variable)), value)
    }

    /// The value of an item variable.
    fn item_value(&mut self) -> Expr {
        if self.random.once_in(2) {
            return self.constant(-1);
        }
        let id = self.id(self.sheet.items());
        self.constant(id)
    }

    /// The value of a count variable.
    fn count_value(&mut self) -> Expr {
        match self.random.below(6) {
            0 => {
                let zero = self.constant(0);
                Expr::unary(Unary::Variable, zero)
            }
            1 => self.any(1),
            2 => {
                let value = self.random.pick(&VALUES);
                self.constant(value)
            }
            _ => {
                let value = self.random.below(4) as i32;
                self.constant(value)
            }
        }
    }

    /// The two writes of a slot, now and then one of them or in the other order.
    fn slot_writes(&mut self) -> Vec<Command> {
        let slot = self.random.pick(&[0, 0, 0, 1, 18, 19]);
        let (item, count) = (self.item_value(), self.count_value());
        let mut writes = vec![self.set(600 + slot, item), self.set(620 + slot, count)];
        match self.random.below(8) {
            0 => writes.truncate(1),
            1 => writes.swap(0, 1),
            2 => {
                writes.remove(0);
            }
            _ => (),
        }
        writes
    }

    /// Variable 0 set as the compiler does, or nearly so.
    fn limit_write(&mut self) -> Command {
        let (limit, id) = (self.random.pick(&VALUES), self.id(self.sheet.items()));
        let (limit, id) = (self.constant(limit), self.constant(id));
        let held = Expr::unary(Unary::Item, id);
        let value = match self.random.below(8) {
            0 => Expr::binary(Binary::Subtract, held, limit),
            1 => self.any(2),
            2 => self.constant(0),
            _ => Expr::binary(Binary::Subtract, limit, held),
        };
        self.set(0, value)
    }

    /// One command, or the two writes of a slot.
    pub fn commands(&mut self) -> Vec<Command> {
        vec![match self.random.below(20) {
            0 => Command::Return,
            1 => Command::Goto(self.block()),
            2 => Command::EndIf(self.block()),
            3 => Command::Other,
            4 => Command::Set(Target::Other, self.any(2)),
            5 => Command::Set(Target::Variable(self.any(1)), self.any(2)),
            6 => self.limit_write(),
            7..=10 => Command::If(self.condition(3), self.block()),
            _ => return self.slot_writes(),
        }]
    }

    /// The code of block `place`, half of the time with the block behind it as its next.
    fn code(&mut self, place: usize) -> Code {
        let groups = self.random.between(1, 3);
        let commands = (0..groups).flat_map(|_| self.commands()).collect();
        let behind = place + 1 < self.blocks && self.random.once_in(2);
        let next = if behind { Some(place + 1) } else { self.link() };
        Code {
            commands,
            next,
            else_block: self.link(),
        }
    }

    /// A block for `place`, mostly code.
    pub fn any_block(&mut self, place: usize) -> Block {
        match self.random.below(40) {
            0 => Block::Placeholder,
            1 => Block::Data,
            _ => Block::Code(self.code(place)),
        }
    }

    /// A script of `self.blocks` blocks.
    pub fn script(&mut self) -> Script {
        Script {
            blocks: (0..self.blocks)
                .map(|place| self.any_block(place))
                .collect(),
        }
    }

    /// A script in which writes of slots stand behind tests, as in a shop.
    pub fn decisions(&mut self) -> Script {
        let mut blocks = Vec::new();
        for place in 0..self.blocks {
            let mut commands = Vec::new();
            let tests = place == 0 || self.random.once_in(2);
            if !tests || self.random.once_in(3) {
                commands.extend(self.slot_writes());
            }
            if tests {
                commands.push(Command::If(self.condition(3), self.block()));
            }
            // The blocks behind this one are mostly unread yet.
            let behind = (place + 1).min(self.blocks - 1);
            let next = self.random.between(behind, self.blocks - 1);
            let code = Code {
                commands,
                next: Some(next),
                else_block: self.link(),
            };
            blocks.push(Block::Code(code));
        }
        Script { blocks }
    }

    fn requirement(&mut self) -> Requirement {
        let item = self.random.below(self.sheet.items()) as u16;
        let atc = self.random.below(usize::from(self.sheet.atcs).max(1)) as u16;
        let flag = self.flag();
        let atcs = self.sheet.atcs > 0;
        match self.random.below(6) {
            0 => Requirement::HaveItem(item),
            1 => Requirement::MissingItem(item),
            2 if atcs => Requirement::HaveAtc(atc),
            3 if atcs => Requirement::MissingAtc(atc),
            4 => Requirement::HaveFlag(flag),
            _ => Requirement::MissingFlag(flag),
        }
    }

    /// A slot that fits the sheet.
    pub fn slot(&mut self) -> Slot {
        let mut choices: Vec<Option<u16>> = self.sheet.timers.map(Some).to_vec();
        choices.push(None);
        for _ in 0..6 {
            choices.push(Some(self.random.below(self.sheet.items()) as u16));
        }
        let item = self.random.pick(&choices);
        let entries = match self.random.below(24) {
            0 => ENTRIES,
            1 => ENTRIES - 1,
            _ => self.random.below(4),
        };
        let requirements = (0..entries).map(|_| self.requirement()).collect();
        Slot {
            item,
            limit: self.random.pick(&LIMITS),
            requirements,
        }
    }

    /// A shop that fits the sheet, most of its slots empty.
    pub fn shop(&mut self) -> Vec<Slot> {
        let slots = self.random.pick(&[0, 1, 2, 3, SLOTS - 1, SLOTS, SLOTS + 1]);
        let mut shop = vec![Slot::default(); slots];
        for _ in 0..self.random.pick(&[0, 1, 1, 2, 3, 4]) {
            if slots > 0 {
                let place = self.random.below(slots);
                shop[place] = self.slot();
            }
        }
        shop
    }

    /// A shop that may break one rule of refusal 8, or break it where nobody looks.
    pub fn doubtful_shop(&mut self) -> Vec<Slot> {
        let mut shop = self.shop();
        shop.resize(self.random.pick(&[1, SLOTS, SLOTS + 1]), Slot::default());
        let place = if self.random.once_in(2) {
            shop.len() - 1
        } else {
            0
        };
        let (items, atcs) = (self.sheet.items() as u16, self.sheet.atcs);
        let slot = &mut shop[place];
        match self.random.below(7) {
            0 => slot.item = Some(items),
            1 => slot.item = Some(items - 1),
            2 => slot.requirements.push(Requirement::HaveItem(items)),
            3 => slot.requirements.push(Requirement::MissingItem(u16::MAX)),
            4 => slot.requirements.push(Requirement::HaveAtc(atcs)),
            5 => slot.requirements = vec![Requirement::MissingFlag(1); ENTRIES + 1],
            _ => slot.requirements = vec![Requirement::HaveFlag(-1); ENTRIES],
        }
        shop
    }
}
