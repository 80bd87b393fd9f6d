//! Requirements, slots and shops as text, in the form that the program `slots` prints, and back. The library reads every text and
//! prints every shop.

use crate::arrays::zeros;
use crate::ffi::{self, TEXT};
use crate::shop::{ENTRIES, NUM_SLOTS, ShopArrays};
use crate::{Atc, Item, Requirement, Shop, Slot};
use std::error::Error;
use std::fmt;
use std::str::FromStr;

/// Why a line is none of a shop's text, in the order in which a line is read.
#[derive(Debug, Copy, Clone, PartialEq, Eq, PartialOrd, Ord, Hash)]
pub enum TextReason {
    /// It does not begin with its slot's number and a blank.
    NoSlot = 1,
    /// Then comes neither `-` nor an item's number, and a blank.
    NoItem = 2,
    /// Then comes no limit.
    NoLimit = 3,
    /// Behind a blank stands no letter of `IiAaFf` with a number, or one that no [`Item`] or [`Atc`] holds.
    NoRequirement = 4,
    /// There are more requirements than the [`ENTRIES`] that a slot may be given.
    ManyRequirements = 5,
    /// Something else stands there than a blank or the line's end, or the text ends.
    NoEnd = 6,
    /// There is text behind the last line.
    MoreText = 7,
}

impl TextReason {
    /// The reason of a number that the library answered: 0 is none.
    fn of(number: u8) -> Option<Self> {
        match number {
            0 => None,
            1 => Some(Self::NoSlot),
            2 => Some(Self::NoItem),
            3 => Some(Self::NoLimit),
            4 => Some(Self::NoRequirement),
            5 => Some(Self::ManyRequirements),
            6 => Some(Self::NoEnd),
            _ => Some(Self::MoreText),
        }
    }

    /// Its number in the library.
    #[must_use]
    pub fn number(self) -> u8 {
        self as u8
    }
}

impl fmt::Display for TextReason {
    fn fmt(&self, f: &mut fmt::Formatter<'_>) -> fmt::Result {
        f.write_str(match self {
            Self::NoSlot => {
                "the slot's number is due at its start, 0 to 19 in order, and a blank"
            }
            Self::NoItem => {
                "an item's number or - is due behind the slot's number, and a blank before the limit"
            }
            Self::NoLimit => "a limit from -32768 to 32767 is due behind the item",
            Self::NoRequirement => "a requirement is a letter of IiAaFf and a number that fits",
            Self::ManyRequirements => "a slot has at most 14 requirements",
            Self::NoEnd => "a blank or the end of the line is missing",
            Self::MoreText => "nothing may follow the last line",
        })
    }
}

/// Why a text is no requirement, slot or shop.
#[derive(Debug, Clone, PartialEq, Eq)]
pub struct BadText {
    /// The line, counted from 1, where a shop is read; 0 where one line is.
    pub line: usize,
    /// What was found there: the line, or nothing where the text ended before it.
    pub found: String,
    /// Why that is none.
    pub reason: TextReason,
}

impl BadText {
    fn of_line(found: &str, reason: TextReason) -> Self {
        Self {
            line: 0,
            found: found.to_owned(),
            reason,
        }
    }
}

impl fmt::Display for BadText {
    fn fmt(&self, f: &mut fmt::Formatter<'_>) -> fmt::Result {
        if self.line > 0 {
            write!(f, "line {}: ", self.line)?;
        }
        write!(f, "`{}`: {}", self.found, self.reason)
    }
}

impl Error for BadText {}

// ---- shops

/// Whether the code is that of an item or an attachment whose number is over 16 bits.
fn is_too_wide(code: u64) -> bool {
    code >> 32 < 4 && (code & 0xFFFF_FFFF) > (1 << 31) + u64::from(u16::MAX)
}

/// The first slot with an id that no [`Item`] or [`Atc`] holds.
fn too_wide(arrays: &ShopArrays) -> Option<usize> {
    let mut rows = arrays.codes.chunks(ENTRIES);
    rows.position(|row| row.iter().any(|code| is_too_wide(*code)))
}

impl Shop {
    /// The shop of a text in the form that is printed, of any bytes.
    ///
    /// ```
    /// use locustkeno::{Shop, TextReason};
    /// let text = Shop::with_slots([]).to_string();
    /// assert_eq!(Shop::from_text(text.as_bytes()), Ok(Shop::with_slots([])));
    /// assert_eq!(Shop::from_text(b"\xFF").unwrap_err().reason, TextReason::NoSlot);
    /// ```
    pub fn from_text(text: &[u8]) -> Result<Self, BadText> {
        let mut arrays = Box::new(ShopArrays::new());
        let read = ffi::read_shop(text, &mut arrays);
        let told = TextReason::of(read.reason).map(|reason| (usize::from(read.line), reason));
        let wide = || too_wide(&arrays).map(|i| (i + 1, TextReason::NoRequirement));
        match told.or_else(wide) {
            None => Ok(Self::from_arrays(arrays)),
            Some((line, reason)) => {
                let found = text.split(|b| *b == b'\n').nth(line - 1).unwrap_or(b"");
                let found = String::from_utf8_lossy(found).into_owned();
                Err(BadText {
                    line,
                    found,
                    reason,
                })
            }
        }
    }
}

/// Twenty lines, each a slot behind its number, as the library prints them. A shop with a slot that was given over [`ENTRIES`] entries, which
/// the library does not print, is shown line by line with all of them; that text is not read back.
///
/// ```
/// use locustkeno::{Item, Shop, Slot};
/// let shop = Shop::with_slots([Slot { item: Some(Item(7)), limit: 3, ..Slot::new() }]);
/// let text = shop.to_string();
/// assert!(text.starts_with("0 7 3\n1 - 0\n"));
/// assert_eq!(text.parse(), Ok(shop));
/// let bad = "0 7 3\n2 - 0\n".parse::<Shop>().unwrap_err();
/// assert_eq!(bad.to_string(), "line 2: `2 - 0`: the slot's number is due at its start, 0 to 19 in order, and a blank");
/// ```
impl fmt::Display for Shop {
    fn fmt(&self, f: &mut fmt::Formatter<'_>) -> fmt::Result {
        let mut out = zeros::<u8, TEXT>();
        let len = ffi::print_shop(self.arrays(), &mut out) as usize;
        if len > 0 {
            return f.write_str(&String::from_utf8_lossy(&out[..len]));
        }
        (0..)
            .zip(self.slots())
            .try_for_each(|(i, slot): (usize, _)| writeln!(f, "{i} {slot}"))
    }
}

impl FromStr for Shop {
    type Err = BadText;

    fn from_str(text: &str) -> Result<Self, BadText> {
        Self::from_text(text.as_bytes())
    }
}

// ---- slots

/// Its item or `-`, its limit, and each requirement behind a blank, in the order in which they stand.
///
/// ```
/// use locustkeno::{Item, Requirement, Slot};
/// let slot = Slot { item: Some(Item(7)), limit: 3, requirements: [Requirement::HaveFlag(40)].into() };
/// assert_eq!(slot.to_string(), "7 3 F40");
/// assert_eq!("7 3 F40".parse(), Ok(slot));
/// assert_eq!("- 0".parse(), Ok(Slot::default()));
/// ```
impl fmt::Display for Slot {
    fn fmt(&self, f: &mut fmt::Formatter<'_>) -> fmt::Result {
        match self.item {
            Some(Item(n)) => write!(f, "{n}")?,
            None => write!(f, "-")?,
        }
        write!(f, " {}", self.limit)?;
        self.requirements.iter().try_for_each(|r| write!(f, " {r}"))
    }
}

/// Read as the first slot of a shop that has no other.
impl FromStr for Slot {
    type Err = BadText;

    fn from_str(text: &str) -> Result<Self, BadText> {
        let others: String = (1..NUM_SLOTS).map(|i| format!("{i} - 0\n")).collect();
        let shop = Shop::from_text(format!("0 {text}\n{others}").as_bytes());
        match shop {
            Ok(shop) => Ok(shop.slots()[0].clone()),
            Err(bad) if bad.line == 1 => Err(BadText::of_line(text, bad.reason)),
            Err(_) => Err(BadText::of_line(text, TextReason::MoreText)),
        }
    }
}

// ---- requirements

/// The letter of its kind and its number: I, i, A, a, F and f in sorting order, small ones for what has to be missing.
///
/// ```
/// use locustkeno::{Item, Requirement};
/// assert_eq!(Requirement::MissingItem(Item(7)).to_string(), "i7");
/// assert_eq!("F-1".parse(), Ok(Requirement::HaveFlag(-1)));
/// assert!("F01".parse::<Requirement>().is_err());
/// ```
impl fmt::Display for Requirement {
    fn fmt(&self, f: &mut fmt::Formatter<'_>) -> fmt::Result {
        match self {
            Self::HaveItem(Item(n)) => write!(f, "I{n}"),
            Self::MissingItem(Item(n)) => write!(f, "i{n}"),
            Self::HaveAtc(Atc(n)) => write!(f, "A{n}"),
            Self::MissingAtc(Atc(n)) => write!(f, "a{n}"),
            Self::HaveFlag(n) => write!(f, "F{n}"),
            Self::MissingFlag(n) => write!(f, "f{n}"),
        }
    }
}

/// Read as the only requirement of a slot.
impl FromStr for Requirement {
    type Err = BadText;

    fn from_str(text: &str) -> Result<Self, BadText> {
        let slot: Slot = format!("- 0 {text}")
            .parse()
            .map_err(|bad: BadText| BadText::of_line(text, bad.reason))?;
        match slot.requirements[..] {
            [requirement] => Ok(requirement),
            _ => Err(BadText::of_line(text, TextReason::NoEnd)),
        }
    }
}
