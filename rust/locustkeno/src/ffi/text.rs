//! The text of a shop.

use crate::shop::{Codes, NUM_SLOTS, ShopArrays};

/// The bytes of an array that takes the text of any shop.
pub const TEXT: usize = 16_384;

/// The reason or 0, and the line, counted from 1.
#[repr(C)]
#[derive(Debug, Copy, Clone)]
pub struct TextRead {
    pub reason: u8,
    pub line: u8,
}

unsafe extern "C" {
    fn lk_read_shop(
        text: *const u8,
        text_len: usize,
        items: *mut [i32; NUM_SLOTS],
        limits: *mut [i16; NUM_SLOTS],
        codes: *mut Codes,
        lens: *mut [u8; NUM_SLOTS],
    ) -> TextRead;

    fn lk_print_shop(
        items: *const [i32; NUM_SLOTS],
        limits: *const [i16; NUM_SLOTS],
        codes: *const Codes,
        lens: *const [u8; NUM_SLOTS],
        out: *mut [u8; TEXT],
    ) -> u32;
}

/// Reads a shop's text into the arrays, which stay as they are where it is none.
pub fn read_shop(text: &[u8], shop: &mut ShopArrays) -> TextRead {
    // SAFETY: the bytes lie in the slice, the arrays have the lengths that the library takes, and none overlaps.
    unsafe {
        lk_read_shop(
            text.as_ptr(),
            text.len(),
            &mut shop.items,
            &mut shop.limits,
            &mut shop.codes,
            &mut shop.lens,
        )
    }
}

/// Prints a shop; 0 where a slot has more entries than may be given, and nothing is written then.
pub fn print_shop(shop: &ShopArrays, out: &mut [u8; TEXT]) -> u32 {
    // SAFETY: as in `read_shop`; only the last array is written.
    unsafe { lk_print_shop(&shop.items, &shop.limits, &shop.codes, &shop.lens, out) }
}
