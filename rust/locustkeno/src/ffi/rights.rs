//! The calls of who may edit what.

use crate::Sheet;
use crate::shop::{Codes, NUM_SLOTS, Row, ShopArrays};

/// A byte for each of 16 users and 20 slots, user by user.
pub type RightsBytes = [u8; 16 * NUM_SLOTS];

unsafe extern "C" {
    fn lk_edit(
        attached: *const u8,
        attached_len: usize,
        atcs: u16,
        timer5: u16,
        timer10: u16,
        timer15: u16,
        rights: *const RightsBytes,
        items: *mut [i32; NUM_SLOTS],
        limits: *mut [i16; NUM_SLOTS],
        codes: *mut Codes,
        lens: *mut [u8; NUM_SLOTS],
        user: u32,
        slot: u32,
        field: u8,
        item: i32,
        limit: i16,
        entries: *const Row,
        len: u8,
    ) -> u8;

    fn lk_show(
        rights: *const RightsBytes,
        items: *mut [i32; NUM_SLOTS],
        limits: *mut [i16; NUM_SLOTS],
        codes: *mut Codes,
        lens: *mut [u8; NUM_SLOTS],
        user: u32,
    ) -> u8;
}

/// An edit by numbers: the slot, the field and its content. Of the contents of the other fields nothing is read.
#[derive(Debug, Copy, Clone)]
pub struct EditWords {
    pub slot: u32,
    pub field: u8,
    pub item: i32,
    pub limit: i16,
    pub entries: Row,
    pub len: u8,
}

/// Edits a shop.
pub fn edit(
    sheet: &Sheet,
    rights: &RightsBytes,
    shop: &mut ShopArrays,
    user: u32,
    edit: &EditWords,
) -> u8 {
    let [timer5, timer10, timer15] = sheet.timers.map(|timer| timer.0);
    // SAFETY: the slice and the arrays are as the library takes them, and none overlaps.
    unsafe {
        lk_edit(
            sheet.attached.as_ptr(),
            sheet.attached.len(),
            sheet.atcs,
            timer5,
            timer10,
            timer15,
            rights,
            &mut shop.items,
            &mut shop.limits,
            &mut shop.codes,
            &mut shop.lens,
            user,
            edit.slot,
            edit.field,
            edit.item,
            edit.limit,
            &edit.entries,
            edit.len,
        )
    }
}

/// Leaves of a shop what a user is shown.
pub fn show(rights: &RightsBytes, shop: &mut ShopArrays, user: u32) -> u8 {
    // SAFETY: as in `edit`.
    unsafe {
        lk_show(
            rights,
            &mut shop.items,
            &mut shop.limits,
            &mut shop.codes,
            &mut shop.lens,
            user,
        )
    }
}
