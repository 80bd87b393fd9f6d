//! One walk for many saves.

use crate::{BlockId, Ran, Refused, Save, Script, Sheet, VARIABLES, ffi};

/// How many saves one walk takes at most.
pub const LANES: usize = 64;

/// What a walk answers: each save's run, and how many blocks were read for all of them.
#[derive(Debug, Clone, PartialEq, Eq)]
#[must_use]
pub struct Walk {
    /// The refusal and the count of each save's own run with a budget of 4,096.
    pub runs: Vec<Ran>,
    /// The blocks that at least one of the runs enters, each counted once.
    pub read: u32,
}

/// The parts of saves one behind another, as the library takes them: the items of all saves, the
/// attachments of all, and so on.
#[derive(Debug, Default, Clone, PartialEq, Eq)]
pub struct Saves {
    pub(crate) many: u32,
    pub(crate) items: Vec<i16>,
    pub(crate) atcs: Vec<u8>,
    pub(crate) flags: Vec<u8>,
    pub(crate) times: Vec<i16>,
    pub(crate) variables: Vec<i32>,
}

impl Saves {
    /// Saves of the lengths that the sheet has. Where one is of another length, the variables are one
    /// number, which no count of saves has, so that the library answers 12 in its place.
    #[must_use]
    pub fn of(sheet: &Sheet, saves: &[Save]) -> Self {
        let mut flat = Self {
            many: u32::try_from(saves.len()).unwrap_or(u32::MAX),
            ..Self::default()
        };
        for save in saves {
            flat.items.extend_from_slice(&save.items);
            flat.atcs.extend_from_slice(&save.atcs);
            flat.flags.extend_from_slice(&save.flags);
            flat.times.extend_from_slice(&save.times);
            flat.variables.extend_from_slice(&save.variables);
        }
        let fits = |save: &Save| save.wrong_length(sheet).is_none();
        if !saves.iter().all(fits) {
            flat.variables = vec![0];
        }
        flat
    }

    /// The variables of a save.
    #[must_use]
    pub fn variables(&self, save: usize) -> &[i32] {
        &self.variables[VARIABLES * save..][..VARIABLES]
    }
}

impl Script {
    /// Runs the blocks from `setup` on for 1 to 64 saves at once, each with a budget of 4,096: every
    /// save's variables, refusal and count are those of [`Script::run`], and each block that some run
    /// enters is read once for all of them.
    ///
    /// A save that does not fit the sheet is refusal 12 for all. No save, over 64, or a block that links
    /// lead to from `setup` and that has a link to a number not below its own, is 22. Refused, nothing is
    /// written. The call needs up to 512 kilobytes of stack.
    ///
    /// ```
    /// use locustkeno::{Item, Refusal, Refused, Save, Script, Sheet};
    /// let sheet = Sheet::new(&[None; 3], 0, [Item(0), Item(1), Item(2)]);
    /// // Variable 600 := variable 5, then Return.
    /// let script = Script::read(&[1, 1, 2, 2, 0, 0x0B, 0xB0, 0x09, 0x0E, 0x0B, 0x0A, 0, 0, 0])?;
    /// let mut saves = vec![Save::new(&sheet); 3];
    /// saves[1].variables[5] = 7;
    /// let walk = script.run_all(&sheet, 0, &mut saves)?;
    /// assert_eq!((walk.read, walk.runs.len()), (1, 3));
    /// assert_eq!([0, 1, 2].map(|j: usize| saves[j].variables[600]), [0, 7, 0]);
    /// assert_eq!(script.run_all(&sheet, 0, &mut []), Err(Refusal::BadWalk.into()));
    /// saves[2].flags[0] = 2;
    /// assert_eq!(script.run_all(&sheet, 0, &mut saves), Err(Refusal::BadSave.into()));
    /// # Ok::<(), Refused>(())
    /// ```
    pub fn run_all(
        &self,
        sheet: &Sheet,
        setup: impl Into<BlockId>,
        saves: &mut [Save],
    ) -> Result<Walk, Refused> {
        let mut flat = Saves::of(sheet, saves);
        let walked = self.run_saves(sheet, setup, &mut flat);
        let walk = walked.map_err(|refused| refused.in_saves(sheet, saves))?;
        for (save, left) in saves.iter_mut().zip(flat.variables.chunks_exact(VARIABLES)) {
            save.variables.copy_from_slice(left);
        }
        Ok(walk)
    }

    /// [`Script::run_all`] of saves that lie one behind another already, which spares the copies.
    pub fn run_saves(
        &self,
        sheet: &Sheet,
        setup: impl Into<BlockId>,
        saves: &mut Saves,
    ) -> Result<Walk, Refused> {
        let (mut refusals, mut entered) = ([0; LANES], [0; LANES]);
        let a = &self.arrays;
        let walked = ffi::run_all(sheet, a, setup.into(), saves, &mut refusals, &mut entered);
        Refused::check(walked.refusal)?;
        let lane = |(refusal, entered): (&u8, &u32)| Ran {
            refusal: Refused::check(*refusal).err(),
            entered: *entered,
        };
        let many = saves.many as usize;
        Ok(Walk {
            runs: refusals.iter().zip(&entered).take(many).map(lane).collect(),
            read: walked.read,
        })
    }
}
