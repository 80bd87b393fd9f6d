//! What is told of a shop before it is signed.

use crate::Sheet;
use crate::shop::{Codes, NUM_SLOTS, Row, ShopArrays};

/// What is told of a slot, by numbers.
#[repr(C)]
#[derive(Debug, Copy, Clone)]
pub struct Told {
    pub verdict: u8,
    pub entry: u8,
    pub limit: u8,
    pub doubled: u8,
    pub lost: u8,
    pub listed: u8,
    pub settings: u8,
    pub codes: Row,
}

/// The refusal or 0, and what is told of each slot.
#[repr(C)]
#[derive(Debug, Copy, Clone)]
pub struct Checked {
    pub refusal: u8,
    pub slots: [Told; NUM_SLOTS],
}

unsafe extern "C" {
    fn lk_check(
        attached: *const u8,
        attached_len: usize,
        atcs: u16,
        timer5: u16,
        timer10: u16,
        timer15: u16,
        items: *const [i32; NUM_SLOTS],
        limits: *const [i16; NUM_SLOTS],
        codes: *const Codes,
        lens: *const [u8; NUM_SLOTS],
    ) -> Checked;
}

/// What is told of a shop.
pub fn check(sheet: &Sheet, shop: &ShopArrays) -> Checked {
    let [timer5, timer10, timer15] = sheet.timers.map(|timer| timer.0);
    // SAFETY: the slice and the arrays are as the library takes them; it writes to none.
    unsafe {
        lk_check(
            sheet.attached.as_ptr(),
            sheet.attached.len(),
            sheet.atcs,
            timer5,
            timer10,
            timer15,
            &shop.items,
            &shop.limits,
            &shop.codes,
            &shop.lens,
        )
    }
}
