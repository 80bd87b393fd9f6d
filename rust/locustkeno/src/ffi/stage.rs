//! The calls for the heading of a stage.

use super::Written;
use crate::Sheet;

/// How many items a sheet may have.
pub const ITEMS: usize = 512;

/// The refusal or 0, a sheet's numbers, the setup number, and where the image begins; all else is 0 on a refusal.
#[repr(C)]
#[derive(Debug, Copy, Clone)]
pub struct Headed {
    pub refusal: u8,
    pub items: u16,
    pub atcs: u16,
    pub timer5: u16,
    pub timer10: u16,
    pub timer15: u16,
    pub setup: u32,
    pub at: usize,
}

unsafe extern "C" {
    fn lk_read_heading(bytes: *const u8, bytes_len: usize, attached: *mut [u8; ITEMS]) -> Headed;

    fn lk_write_heading(
        attached: *const u8,
        attached_len: usize,
        atcs: u16,
        timer5: u16,
        timer10: u16,
        timer15: u16,
        setup: u32,
        out: *mut u8,
        out_len: usize,
    ) -> Written;
}

pub fn read_heading(bytes: &[u8], attached: &mut [u8; ITEMS]) -> Headed {
    // SAFETY: the slice and the array are as the library takes them, and they do not overlap.
    unsafe { lk_read_heading(bytes.as_ptr(), bytes.len(), attached) }
}

pub fn write_heading(sheet: &Sheet, setup: u32, out: &mut [u8]) -> Written {
    let [timer5, timer10, timer15] = sheet.timers.map(|item| item.0);
    // SAFETY: as in `read_heading`; only the second slice is written.
    unsafe {
        lk_write_heading(
            sheet.attached.as_ptr(),
            sheet.attached.len(),
            sheet.atcs,
            timer5,
            timer10,
            timer15,
            setup,
            out.as_mut_ptr(),
            out.len(),
        )
    }
}
