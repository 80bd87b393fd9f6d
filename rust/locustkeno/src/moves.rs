//! Small moves: what one more of an item held changes (document 02, A.14).

use crate::Preview;

impl Preview {
    /// The slots, by number, whose pair is not the same in the other preview.
    ///
    /// A designer asks it of one shop and two saves: what does the player see otherwise with one more in the bag? Where the
    /// saves are alike but for one item, of which the first holds at least one and the second one more, it is proved that only slots of
    /// that item with a limit above 1 are named, each with a count that is lower by 1; variable 0 is lower by 0 or 1 likewise.
    /// So it is with runs of the compiled shop, each with a budget of 82 blocks or more.
    ///
    /// ```
    /// use locustkeno::{Item, Refused, Save, Sheet, Shop, Slot};
    /// let sheet = Sheet::new(&[None; 8], 0, [Item(0), Item(1), Item(2)]);
    /// let slot = |item, limit| Slot { item: Some(Item(item)), limit, ..Slot::new() };
    /// let shop = Shop::with_slots([slot(7, 3), slot(7, 1), slot(7, 9), slot(0, 1)]);
    /// let holding = |item: usize, count| {
    ///     let mut save = Save::new(&sheet);
    ///     save.items[item] = count;
    ///     shop.preview(&sheet, &save)
    /// };
    /// assert_eq!(holding(7, 2)?.differences(&holding(7, 3)?), [0, 2]);
    /// // Three of three are held already.
    /// assert_eq!(holding(7, 3)?.differences(&holding(7, 4)?), [2]);
    /// // From none to one more may change: slot 1 is sold out, and Timer5 in slot 3 is on sale with another timer.
    /// assert_eq!(holding(7, 0)?.differences(&holding(7, 1)?), [0, 1, 2]);
    /// assert_eq!(holding(1, 0)?.differences(&holding(1, 1)?), [3]);
    /// # Ok::<(), Refused>(())
    /// ```
    #[must_use]
    pub fn differences(&self, other: &Self) -> Vec<usize> {
        let pairs = self.pairs.iter().zip(&other.pairs);
        pairs
            .enumerate()
            .filter(|(_, (ours, theirs))| ours != theirs)
            .map(|(slot, _)| slot)
            .collect()
    }
}
