//! Stand-ins for the game's ids: which items and attachments exist is what the sheet in force says.

use crate::plain::Sheet;
use std::cell::RefCell;
use std::cmp::Ordering;

thread_local! {
    // The original converts ids without being handed a sheet, so the sheet is set aside for it.
    static SHEET: RefCell<Sheet> = const {
        RefCell::new(Sheet { atc_of: Vec::new(), atcs: 0, timers: [0; 3] })
    };
}

/// Puts `sheet` in force on this thread.
pub fn set_sheet(sheet: &Sheet) {
    SHEET.with_borrow_mut(|s| s.clone_from(sheet));
}

/// A number that is no id of the kind asked for.
#[derive(Debug)]
pub struct Error;

/// An item. The timers are variants, since the original has them in patterns.
#[derive(Debug, Copy, Clone, Hash, PartialEq, Eq)]
pub enum Item {
    Timer5,
    Timer10,
    Timer15,
    Plain(u16),
}

const TIMERS: [Item; 3] = [Item::Timer5, Item::Timer10, Item::Timer15];

impl Item {
    /// The sheet's number of this item.
    pub fn number(self) -> u16 {
        match self {
            Self::Plain(id) => id,
            Self::Timer5 => SHEET.with_borrow(|s| s.timers[0]),
            Self::Timer10 => SHEET.with_borrow(|s| s.timers[1]),
            Self::Timer15 => SHEET.with_borrow(|s| s.timers[2]),
        }
    }
}

impl TryFrom<i16> for Item {
    type Error = Error;
    fn try_from(id: i16) -> Result<Self, Error> {
        let id = u16::try_from(id).map_err(|_| Error)?;
        SHEET.with_borrow(|s| {
            if usize::from(id) >= s.atc_of.len() {
                return Err(Error);
            }
            let timer = s.timers.iter().position(|&t| t == id);
            Ok(timer.map_or(Self::Plain(id), |t| TIMERS[t]))
        })
    }
}

impl From<Item> for i16 {
    fn from(item: Item) -> Self {
        // A sheet has at most 512 items.
        item.number() as i16
    }
}

// Requirements are sorted by the sheet's numbers, which the order of the variants is not.
impl Ord for Item {
    fn cmp(&self, other: &Self) -> Ordering {
        self.number().cmp(&other.number())
    }
}

impl PartialOrd for Item {
    fn partial_cmp(&self, other: &Self) -> Option<Ordering> {
        Some(self.cmp(other))
    }
}

/// An attachment, by the sheet's number.
#[derive(Debug, Copy, Clone, Hash, PartialEq, Eq, PartialOrd, Ord)]
pub struct Atc(pub u16);

impl TryFrom<i16> for Atc {
    type Error = Error;
    fn try_from(id: i16) -> Result<Self, Error> {
        let id = u16::try_from(id).map_err(|_| Error)?;
        SHEET.with_borrow(|s| {
            if id < s.atcs {
                Ok(Self(id))
            } else {
                Err(Error)
            }
        })
    }
}

impl TryFrom<Item> for Atc {
    type Error = Error;
    fn try_from(item: Item) -> Result<Self, Error> {
        let index = usize::from(item.number());
        SHEET
            .with_borrow(|s| s.atc_of[index])
            .map(Self)
            .ok_or(Error)
    }
}

impl From<Atc> for i16 {
    fn from(atc: Atc) -> Self {
        // A sheet has at most 64 attachments.
        atc.0 as i16
    }
}

/// An object, of which no call here asks anything.
#[derive(Debug, Copy, Clone, PartialEq, Eq)]
pub struct Object(i32);

impl TryFrom<i32> for Object {
    type Error = Error;
    fn try_from(id: i32) -> Result<Self, Error> {
        Ok(Self(id))
    }
}

impl From<Object> for i32 {
    fn from(object: Object) -> Self {
        object.0
    }
}

/// A sound effect; there are none here.
#[derive(Debug, Copy, Clone, PartialEq, Eq)]
pub enum Sfx {}

/// A piece of music; there are none here.
#[derive(Debug, Copy, Clone, PartialEq, Eq)]
pub enum Music {}

/// A sound, which here can only be none.
#[derive(Debug, Copy, Clone, PartialEq, Eq)]
pub enum Sound {
    None,
    Sfx(Sfx),
    Music(Music),
}

impl Sound {
    pub fn value(self) -> u32 {
        u32::MAX
    }
}

impl TryFrom<u32> for Sound {
    type Error = Error;
    fn try_from(id: u32) -> Result<Self, Error> {
        if id == u32::MAX {
            Ok(Self::None)
        } else {
            Err(Error)
        }
    }
}

impl From<Sound> for u32 {
    fn from(sound: Sound) -> Self {
        sound.value()
    }
}
