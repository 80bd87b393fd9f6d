//! Scripts: read and written as images, compiled into, parsed and run.

use crate::arrays::Arrays;
use crate::{BlockId, Refused, Save, Sheet, ffi};

/// A stage script, held on the heap.
///
/// ```
/// use locustkeno::{Refusal, Refused, Script};
/// // One block of code with one Return; no next, no else.
/// let image = [1, 1, 1, 0, 0, 0];
/// let script = Script::read(&image)?;
/// assert_eq!(script.blocks(), 1);
/// assert_eq!(script.write()?, image);
/// // A number that is not shortest.
/// assert_eq!(Script::read(&[0x81, 0x00]).unwrap_err(), Refusal::BadImage);
/// # Ok::<(), Refused>(())
/// ```
#[derive(Clone)]
pub struct Script {
    pub(crate) arrays: Arrays,
}

/// The budget that is enough for a run of every compiled shop.
pub const BUDGET: u32 = 82;

/// What is to load a compiled script. The demo disc loads at most 512 blocks and 2,048 commands; it has no limit of
/// nodes.
#[derive(Debug, Copy, Clone, Default, PartialEq, Eq, Hash)]
pub enum Loader {
    /// The disc, with the limits of a script alone.
    #[default]
    Disc,
    /// The demo disc.
    Demo,
}

/// What a run answers.
#[derive(Debug, Copy, Clone, PartialEq, Eq)]
#[must_use]
pub struct Ran {
    /// What it was refused with, if it was.
    pub refusal: Option<Refused>,
    /// How many blocks it entered.
    pub entered: u32,
}

impl Loader {
    /// The number that the library takes.
    fn number(self) -> u8 {
        match self {
            Self::Disc => 0,
            Self::Demo => 1,
        }
    }
}

impl Script {
    /// A script of one block of code that returns.
    ///
    /// ```
    /// use locustkeno::{Item, Loader, Refused, Script, Sheet, Shop};
    /// let sheet = Sheet::new(&[None; 3], 0, [Item(0), Item(1), Item(2)]);
    /// let mut script = Script::new();
    /// script.compile(&sheet, Loader::Disc, 0, &Shop::new())?;
    /// assert_eq!(script.blocks(), 22);
    /// # Ok::<(), Refused>(())
    /// ```
    #[must_use]
    pub fn new() -> Self {
        Self::read(&[1, 1, 1, 0, 0, 0]).expect("it is the image of a Return")
    }

    /// A script without blocks, into which an image can be [read](Script::read_again).
    #[must_use]
    pub fn empty() -> Self {
        Self::from_arrays(Arrays::default())
    }

    /// Reads the image of a script, with refusals 2 to 5. An image carries no birth marks: every block
    /// that was read has mark 0, and the count of compiles starts at 0.
    ///
    /// ```
    /// use locustkeno::{Item, Loader, Refusal, Refused, Script, Sheet, Shop};
    /// let sheet = Sheet::new(&[None; 3], 0, [Item(0), Item(1), Item(2)]);
    /// let shop = Shop::with_slots([]);
    /// let mut script = Script::read(&[1, 1, 1, 0, 0, 0])?;
    /// script.compile(&sheet, Loader::Disc, 0, &shop)?;
    /// assert_eq!(script.compile(&sheet, Loader::Disc, 1, &shop), Err(Refusal::BornLater.into()));
    /// // Block 1 is the shop's Return, and after reading it is a block like any other.
    /// let mut anew = Script::read(&script.write()?)?;
    /// assert_eq!((anew.birth(1), anew.compiles()), (Some(0), 0));
    /// assert_eq!(anew.compile(&sheet, Loader::Disc, 1, &shop), Ok(()));
    /// # Ok::<(), Refused>(())
    /// ```
    pub fn read(image: &[u8]) -> Result<Self, Refused> {
        let mut script = Self::empty();
        script.read_again(image)?;
        Ok(script)
    }

    /// Reads an image in the place of this script, which saves making the arrays anew. Refused, the
    /// script has no blocks.
    pub fn read_again(&mut self, image: &[u8]) -> Result<(), Refused> {
        let a = &mut self.arrays;
        let kept = ffi::read(image, a);
        a.keep(kept)
    }

    /// The image of the script. A script that was read is never refused.
    pub fn write(&self) -> Result<Vec<u8>, Refused> {
        // A slice of this length holds the image of any accepted script with these counts, and the library then
        // writes a script that is plainly fine without measuring it first.
        let a = &self.arrays;
        let most =
            6 * usize::from(a.nodes) + 6 * usize::from(a.commands) + 16 * usize::from(a.blocks) + 5;
        let mut image = vec![0; most];
        let len = self.write_into(&mut image)?;
        image.truncate(len);
        Ok(image)
    }

    /// Writes the image into a slice and says how long it is. A slice that is too short is refusal
    /// 16 and stays as it was; so do the bytes past the image.
    pub fn write_into(&self, out: &mut [u8]) -> Result<usize, Refused> {
        let written = ffi::write(&self.arrays, out);
        Refused::check(written.refusal).map(|()| written.len)
    }

    /// Runs the script from a block on, entering at most `budget` blocks, and writes the save's
    /// variables.
    ///
    /// ```
    /// use locustkeno::{Item, Refusal, Refused, Save, Script, Sheet};
    /// let sheet = Sheet::new(&[None; 3], 0, [Item(0), Item(1), Item(2)]);
    /// // Variable 600 := 2, then Return.
    /// let script = Script::read(&[1, 1, 2, 2, 0, 0x0B, 0xB0, 0x09, 0x0B, 4, 0, 0, 0])?;
    /// let mut save = Save::new(&sheet);
    /// let ran = script.run(&sheet, 0, &mut save, 100);
    /// assert_eq!((ran.refusal, ran.entered), (None, 1));
    /// assert_eq!(save.pair(0), (2, 0));
    /// let ran = script.run(&sheet, 0, &mut save, 0);
    /// assert_eq!((ran.refusal, ran.entered), (Some(Refusal::BudgetSpent.into()), 0));
    /// # Ok::<(), Refused>(())
    /// ```
    pub fn run(
        &self,
        sheet: &Sheet,
        start: impl Into<BlockId>,
        save: &mut Save,
        budget: u32,
    ) -> Ran {
        let ran = ffi::run(sheet, &self.arrays, start.into(), save, budget);
        Ran {
            refusal: Refused::check(ran.refusal)
                .err()
                .map(|refused| refused.in_saves(sheet, std::slice::from_ref(save))),
            entered: ran.entered,
        }
    }

    /// How many blocks the script has.
    #[must_use]
    pub fn blocks(&self) -> usize {
        self.arrays.blocks.into()
    }

    /// The birth mark of a block: 0 if it was read or built at the start, else the ordinal of the accepted
    /// compile that appended it. `None` where there is no such block.
    ///
    /// ```
    /// use locustkeno::{Item, Loader, Refused, Script, Sheet, Shop};
    /// let sheet = Sheet::new(&[None; 3], 0, [Item(0), Item(1), Item(2)]);
    /// let mut script = Script::read(&[1, 1, 1, 0, 0, 0])?;
    /// script.compile(&sheet, Loader::Disc, 0, &Shop::with_slots([]))?;
    /// // Block 0 is the setup block, blocks 1 to 21 are the empty shop's.
    /// assert_eq!([0, 1, 21, 22].map(|b| script.birth(b)), [Some(0), Some(1), Some(1), None]);
    /// script.compile(&sheet, Loader::Disc, 0, &Shop::with_slots([]))?;
    /// assert_eq!([0, 1, 21, 22].map(|b| script.birth(b)), [Some(0), Some(1), Some(1), Some(2)]);
    /// # Ok::<(), Refused>(())
    /// ```
    #[must_use]
    pub fn birth(&self, block: impl Into<BlockId>) -> Option<u32> {
        let marks = self.arrays.births.iter().take(self.blocks());
        marks.copied().nth(block.into().index())
    }

    /// How many compiles were accepted since the script was read or built. At 4,294,967,295 it stays.
    ///
    /// ```
    /// use locustkeno::{Item, Loader, Refusal, Refused, Script, Sheet, Shop};
    /// let sheet = Sheet::new(&[None; 3], 0, [Item(0), Item(1), Item(2)]);
    /// let shop = Shop::with_slots([]);
    /// let mut script = Script::read(&[1, 1, 1, 0, 0, 0])?;
    /// assert_eq!(script.compiles(), 0);
    /// script.compile(&sheet, Loader::Disc, 0, &shop)?;
    /// // A refused compile is not counted.
    /// assert_eq!(script.compile(&sheet, Loader::Disc, 1, &shop), Err(Refusal::BornLater.into()));
    /// assert_eq!(script.compiles(), 1);
    /// # Ok::<(), Refused>(())
    /// ```
    #[must_use]
    pub fn compiles(&self) -> u32 {
        self.arrays.compiles
    }

    /// The script as arrays.
    #[must_use]
    pub fn arrays(&self) -> &Arrays {
        &self.arrays
    }

    /// A script from arrays, whatever they hold: the calls judge it in the place of refusals 2 to 5. The
    /// birth marks and the count of compiles are taken as they stand.
    #[must_use]
    pub fn from_arrays(arrays: Arrays) -> Self {
        Self { arrays }
    }
}

impl Default for Script {
    fn default() -> Self {
        Self::new()
    }
}

mod shops {
    use super::{Loader, Script};
    use crate::shop::{NUM_SLOTS, ShopArrays};
    use crate::{BlockId, Refused, Save, Sheet, Shop, ffi};

    impl Script {
        /// Compiles a shop for a loader and links it at block `setup`. A block that a compile appended is refusal 17
        /// (see [`Script::birth`]); 19 is for a result that the demo does not load. Refused, the script stays as it was.
        ///
        /// ```
        /// use locustkeno::{BUDGET, Item, Loader, Refusal, Refused, Save, Script, Sheet, Shop, Slot};
        /// let sheet = Sheet::new(&[None; 8], 0, [Item(0), Item(1), Item(2)]);
        /// let slot = Slot { item: Some(Item(7)), limit: 3, ..Slot::new() };
        /// let shop = Shop::with_slots([slot]);
        /// let mut script = Script::read(&[1, 1, 1, 0, 0, 0])?;
        /// script.compile(&sheet, Loader::Disc, 0, &shop)?;
        /// assert_eq!(script.parse(&sheet, 0)?, shop);
        /// let mut save = Save::new(&sheet);
        /// assert_eq!(script.run(&sheet, 0, &mut save, BUDGET).refusal, None);
        /// assert_eq!(save.pair(0), (7, 3));
        /// assert_eq!(script.compile(&sheet, Loader::Disc, 9_999, &shop), Err(Refusal::NotBlock.into()));
        /// # Ok::<(), Refused>(())
        /// ```
        ///
        /// An empty shop adds 21 blocks:
        ///
        /// ```
        /// use locustkeno::{Item, Loader, Refusal, Refused, Script, Sheet, Shop};
        /// let sheet = Sheet::new(&[None; 3], 0, [Item(0), Item(1), Item(2)]);
        /// let shop = Shop::with_slots([]);
        /// // A block of code and 490 or 491 placeholders.
        /// let of_blocks = |low: u8, count: usize| {
        ///     let mut image = vec![low, 3, 1, 0, 0, 0];
        ///     image.resize(5 + count, 0);
        ///     Script::read(&image)
        /// };
        /// assert_eq!(of_blocks(0xEB, 491)?.compile(&sheet, Loader::Demo, 0, &shop), Ok(()));
        /// let mut script = of_blocks(0xEC, 492)?;
        /// assert_eq!(script.compile(&sheet, Loader::Demo, 0, &shop), Err(Refusal::DemoFull.into()));
        /// assert_eq!(script.blocks(), 492);
        /// assert_eq!(script.compile(&sheet, Loader::Disc, 0, &shop), Ok(()));
        /// # Ok::<(), Refused>(())
        /// ```
        pub fn compile(
            &mut self,
            sheet: &Sheet,
            loader: Loader,
            setup: impl Into<BlockId>,
            shop: &Shop,
        ) -> Result<(), Refused> {
            let a = &mut self.arrays;
            let arrays = shop.arrays();
            let kept = ffi::compile(sheet, a, loader.number(), setup.into(), arrays);
            a.keep(kept)
                .map_err(|refused| refused.in_shop(sheet, arrays))
        }

        /// Reads the shop that starts at block `setup`. Requirements come out sorted, each once. It needs up to 512 kilobytes of stack.
        pub fn parse(&self, sheet: &Sheet, setup: impl Into<BlockId>) -> Result<Shop, Refused> {
            let mut shop = Box::new(ShopArrays::new());
            let refusal = ffi::parse(sheet, &self.arrays, setup.into(), &mut shop);
            Refused::check(refusal).map(|()| Shop::from_arrays(shop))
        }
    }

    /// What a shop means for a save.
    #[derive(Debug, Copy, Clone, PartialEq, Eq)]
    #[must_use]
    pub struct Preview {
        /// The item and the count of each slot; the item is -1 where it is hidden.
        pub pairs: [(i32, i32); NUM_SLOTS],
        /// What variable 0 ends as.
        pub variable0: i32,
    }

    impl Shop {
        /// What the shop means for a save, with refusals 1, 8 and 12, and 23 where the run of the compiled shop is answered 23.
        pub fn preview(&self, sheet: &Sheet, save: &Save) -> Result<Preview, Refused> {
            let shop = self.arrays();
            let seen = ffi::preview(sheet, shop, save);
            let saves = std::slice::from_ref(save);
            Refused::check(seen.refusal)
                .map_err(|refused| refused.in_shop(sheet, shop).in_saves(sheet, saves))?;
            Ok(Preview {
                pairs: std::array::from_fn(|i| (seen.items[i], seen.counts[i])),
                variable0: seen.temp,
            })
        }
    }
}

pub use shops::Preview;
