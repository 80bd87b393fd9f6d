//! The functions that take or fill a shop.

use super::Kept;
use crate::arrays::{Arrays, Births, BlockWords, CommandWords, NodeWords, Values};
use crate::shop::{Codes, Given, NUM_SLOTS, ShopArrays};
use crate::{BlockId, Save, Sheet};

/// The refusal or 0, the pair of each slot, and what variable 0 ends as.
#[repr(C)]
#[derive(Debug, Copy, Clone)]
pub struct Previewed {
    pub refusal: u8,
    pub items: [i32; NUM_SLOTS],
    pub counts: [i32; NUM_SLOTS],
    pub temp: i32,
}

unsafe extern "C" {
    fn lk_compile(
        attached: *const u8,
        attached_len: usize,
        atcs: u16,
        timer5: u16,
        timer10: u16,
        timer15: u16,
        ws: *mut NodeWords,
        val: *mut Values,
        cw: *mut CommandWords,
        bw: *mut BlockWords,
        births: *mut Births,
        nodes: u16,
        commands: u16,
        blocks: u16,
        compiles: u32,
        loader: u8,
        setup: u32,
        items: *const [i32; NUM_SLOTS],
        limits: *const [i16; NUM_SLOTS],
        codes: *const Codes,
        lens: *const [u8; NUM_SLOTS],
    ) -> Kept;

    fn lk_with_slots(
        items: *const i32,
        items_len: usize,
        limits: *const i16,
        limits_len: usize,
        codes: *const u64,
        codes_len: usize,
        lens: *const u8,
        lens_len: usize,
        to_items: *mut [i32; NUM_SLOTS],
        to_limits: *mut [i16; NUM_SLOTS],
        to_codes: *mut Codes,
        to_lens: *mut [u8; NUM_SLOTS],
    );

    fn lk_parse(
        attached: *const u8,
        attached_len: usize,
        atcs: u16,
        timer5: u16,
        timer10: u16,
        timer15: u16,
        ws: *const NodeWords,
        val: *const Values,
        cw: *const CommandWords,
        bw: *const BlockWords,
        nodes: u16,
        commands: u16,
        blocks: u16,
        setup: u32,
        items: *mut [i32; NUM_SLOTS],
        limits: *mut [i16; NUM_SLOTS],
        codes: *mut Codes,
        lens: *mut [u8; NUM_SLOTS],
    ) -> u8;

    fn lk_preview(
        attached: *const u8,
        attached_len: usize,
        atcs: u16,
        timer5: u16,
        timer10: u16,
        timer15: u16,
        items: *const [i32; NUM_SLOTS],
        limits: *const [i16; NUM_SLOTS],
        codes: *const Codes,
        lens: *const [u8; NUM_SLOTS],
        counts: *const i16,
        counts_len: usize,
        held: *const u8,
        held_len: usize,
        flags: *const u8,
        flags_len: usize,
        times: *const i16,
        times_len: usize,
        vars: *const i32,
        vars_len: usize,
    ) -> Previewed;
}

/// Compiles a shop into a script.
pub fn compile(
    sheet: &Sheet,
    a: &mut Arrays,
    loader: u8,
    setup: BlockId,
    shop: &ShopArrays,
) -> Kept {
    let [timer5, timer10, timer15] = sheet.timers.map(|timer| timer.0);
    // SAFETY: the slice and the arrays are as the library takes them, and none overlaps.
    unsafe {
        lk_compile(
            sheet.attached.as_ptr(),
            sheet.attached.len(),
            sheet.atcs,
            timer5,
            timer10,
            timer15,
            &mut *a.ws,
            &mut *a.val,
            &mut *a.cw,
            &mut *a.bw,
            &mut *a.births,
            a.nodes,
            a.commands,
            a.blocks,
            a.compiles,
            loader,
            setup.into(),
            &shop.items,
            &shop.limits,
            &shop.codes,
            &shop.lens,
        )
    }
}

/// Makes twenty slots of those given.
pub fn with_slots(given: &Given, shop: &mut ShopArrays) {
    let (items, limits, codes, lens) = given.words();
    // SAFETY: the slices and the arrays are as the library takes them, and none overlaps.
    unsafe {
        lk_with_slots(
            items.as_ptr(),
            items.len(),
            limits.as_ptr(),
            limits.len(),
            codes.as_ptr(),
            codes.len(),
            lens.as_ptr(),
            lens.len(),
            &mut shop.items,
            &mut shop.limits,
            &mut shop.codes,
            &mut shop.lens,
        );
    }
}

/// Reads the shop of a script.
pub fn parse(sheet: &Sheet, a: &Arrays, setup: BlockId, shop: &mut ShopArrays) -> u8 {
    let [timer5, timer10, timer15] = sheet.timers.map(|timer| timer.0);
    // SAFETY: as in `compile`.
    unsafe {
        lk_parse(
            sheet.attached.as_ptr(),
            sheet.attached.len(),
            sheet.atcs,
            timer5,
            timer10,
            timer15,
            &*a.ws,
            &*a.val,
            &*a.cw,
            &*a.bw,
            a.nodes,
            a.commands,
            a.blocks,
            setup.into(),
            &mut shop.items,
            &mut shop.limits,
            &mut shop.codes,
            &mut shop.lens,
        )
    }
}

/// What a shop means for a save.
pub fn preview(sheet: &Sheet, shop: &ShopArrays, save: &Save) -> Previewed {
    let [timer5, timer10, timer15] = sheet.timers.map(|timer| timer.0);
    // SAFETY: the slices and the arrays are as the library takes them; nothing is written.
    unsafe {
        lk_preview(
            sheet.attached.as_ptr(),
            sheet.attached.len(),
            sheet.atcs,
            timer5,
            timer10,
            timer15,
            &shop.items,
            &shop.limits,
            &shop.codes,
            &shop.lens,
            save.items.as_ptr(),
            save.items.len(),
            save.atcs.as_ptr(),
            save.atcs.len(),
            save.flags.as_ptr(),
            save.flags.len(),
            save.times.as_ptr(),
            save.times.len(),
            save.variables.as_ptr(),
            save.variables.len(),
        )
    }
}
