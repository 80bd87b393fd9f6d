//! The shopper's function, of the crate `capi_shopper`.

use crate::shop::{Codes, NUM_SLOTS, ShopArrays};
use crate::shopper::WISHES;
use crate::{Sheet, Shopper, Tariff};

/// The refusal or 0, how many steps were made, and the money left.
#[repr(C)]
#[derive(Debug, Copy, Clone)]
pub struct Shopped {
    pub refusal: u8,
    pub steps: u16,
    pub money: u32,
}

unsafe extern "C" {
    fn lk_shopper(
        attached: *const u8,
        attached_len: usize,
        atcs: u16,
        timer5: u16,
        timer10: u16,
        timer15: u16,
        wares: *const [i32; NUM_SLOTS],
        limits: *const [i16; NUM_SLOTS],
        codes: *const Codes,
        lens: *const [u8; NUM_SLOTS],
        items: *mut i16,
        items_len: usize,
        held: *mut u8,
        held_len: usize,
        flags: *const u8,
        flags_len: usize,
        times: *const i16,
        times_len: usize,
        vars: *mut i32,
        vars_len: usize,
        prices: *const u16,
        prices_len: usize,
        discount: u16,
        money: u32,
        wishes: *const u8,
        wishes_len: usize,
        answers: *mut [u8; WISHES],
        coins: *mut [u32; WISHES],
    ) -> Shopped;
}

/// Fulfils wishes, and writes the shopper's save; the answers and the coins of the steps go to the two arrays.
pub fn shopper(
    sheet: &Sheet,
    shop: &ShopArrays,
    shopper: &mut Shopper,
    tariff: &Tariff,
    wishes: &[u8],
    (answers, coins): (&mut [u8; WISHES], &mut [u32; WISHES]),
) -> Shopped {
    let [timer5, timer10, timer15] = sheet.timers.map(|timer| timer.0);
    let save = &mut shopper.save;
    // SAFETY: the slices and the arrays are as the library takes them, and none that is written overlaps another.
    unsafe {
        lk_shopper(
            sheet.attached.as_ptr(),
            sheet.attached.len(),
            sheet.atcs,
            timer5,
            timer10,
            timer15,
            &shop.items,
            &shop.limits,
            &shop.codes,
            &shop.lens,
            save.items.as_mut_ptr(),
            save.items.len(),
            save.atcs.as_mut_ptr(),
            save.atcs.len(),
            save.flags.as_ptr(),
            save.flags.len(),
            save.times.as_ptr(),
            save.times.len(),
            save.variables.as_mut_ptr(),
            save.variables.len(),
            tariff.prices.as_ptr(),
            tariff.prices.len(),
            tariff.discount,
            shopper.money,
            wishes.as_ptr(),
            wishes.len(),
            answers,
            coins,
        )
    }
}
