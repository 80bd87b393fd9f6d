//! How many settings list a slot.

use crate::Sheet;
use crate::shop::Row;

/// The refusal or 0, the subjects of a slot, and in how many combinations of their answers it is listed and hidden.
#[repr(C)]
#[derive(Debug, Copy, Clone)]
pub struct Settings {
    pub refusal: u8,
    pub subjects: u8,
    pub listed: u32,
    pub hidden: u32,
}

unsafe extern "C" {
    fn lk_settings(
        attached: *const u8,
        attached_len: usize,
        atcs: u16,
        timer5: u16,
        timer10: u16,
        timer15: u16,
        item: i32,
        limit: i16,
        codes: *const Row,
        len: u8,
    ) -> Settings;
}

/// The settings of one slot.
pub fn settings(sheet: &Sheet, item: i32, limit: i16, codes: &Row, len: u8) -> Settings {
    let [timer5, timer10, timer15] = sheet.timers.map(|timer| timer.0);
    // SAFETY: the slice and the row are as the library takes them; it writes to neither.
    unsafe {
        lk_settings(
            sheet.attached.as_ptr(),
            sheet.attached.len(),
            sheet.atcs,
            timer5,
            timer10,
            timer15,
            item,
            limit,
            codes,
            len,
        )
    }
}
