//! The bill's function, of the crate `capi_bill`.

use crate::shop::NUM_SLOTS;
use crate::{Save, Sheet, Tariff};

/// The refusal or 0, and the total.
#[repr(C)]
#[derive(Debug, Copy, Clone)]
pub struct Billed {
    pub refusal: u8,
    pub total: u64,
}

unsafe extern "C" {
    fn lk_bill(
        attached: *const u8,
        attached_len: usize,
        atcs: u16,
        timer5: u16,
        timer10: u16,
        timer15: u16,
        items: *const i16,
        items_len: usize,
        held: *const u8,
        held_len: usize,
        flags: *const u8,
        flags_len: usize,
        times: *const i16,
        times_len: usize,
        vars: *const i32,
        vars_len: usize,
        prices: *const u16,
        prices_len: usize,
        discount: u16,
        basket: *const [i32; NUM_SLOTS],
        to_items: *mut [i32; NUM_SLOTS],
        to_slots: *mut [u8; NUM_SLOTS],
        to_coins: *mut [u64; NUM_SLOTS],
    ) -> Billed;
}

/// The lines of a bill, by item: the items, the slots and the coins.
#[derive(Debug, Copy, Clone)]
pub struct Lines {
    pub items: [i32; NUM_SLOTS],
    pub slots: [u8; NUM_SLOTS],
    pub coins: [u64; NUM_SLOTS],
}

/// Writes the lines of the bill of a basket.
pub fn bill(
    sheet: &Sheet,
    save: &Save,
    tariff: &Tariff,
    basket: &[i32; NUM_SLOTS],
    lines: &mut Lines,
) -> Billed {
    let [timer5, timer10, timer15] = sheet.timers.map(|timer| timer.0);
    // SAFETY: the slices and the arrays are as the library takes them, and none overlaps.
    unsafe {
        lk_bill(
            sheet.attached.as_ptr(),
            sheet.attached.len(),
            sheet.atcs,
            timer5,
            timer10,
            timer15,
            save.items.as_ptr(),
            save.items.len(),
            save.atcs.as_ptr(),
            save.atcs.len(),
            save.flags.as_ptr(),
            save.flags.len(),
            save.times.as_ptr(),
            save.times.len(),
            save.variables.as_ptr(),
            save.variables.len(),
            tariff.prices.as_ptr(),
            tariff.prices.len(),
            tariff.discount,
            basket,
            &mut lines.items,
            &mut lines.slots,
            &mut lines.coins,
        )
    }
}
