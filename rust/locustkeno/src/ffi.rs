//! The functions of the static library, as `include/locustkeno.h` has them, and each as a safe function.
//!
//! A slice is a pointer and a length; a reference to an array is a pointer. The library needs nothing else: it takes any numbers,
//! keeps no pointer, and writes only to what is handed over as `mut`. All that is unsafe in this crate is here.

use crate::arrays::{Arrays, Births, BlockWords, CommandWords, MovedWords, NodeWords, Values};
use crate::lanes::Saves;
use crate::{BlockId, LANES, Save, Sheet};

/// The refusal or 0, the kept counts of a script and the count of its accepted compiles.
#[repr(C)]
#[derive(Debug, Copy, Clone)]
pub struct Kept {
    pub refusal: u8,
    pub nodes: u16,
    pub commands: u16,
    pub blocks: u16,
    pub compiles: u32,
}

/// The refusal or 0, and how many blocks a walk read.
#[repr(C)]
#[derive(Debug, Copy, Clone)]
pub struct Walked {
    pub refusal: u8,
    pub read: u32,
}

/// The refusal or 0, and the length of an image or a heading.
#[repr(C)]
#[derive(Debug, Copy, Clone)]
pub struct Written {
    pub refusal: u8,
    pub len: usize,
}

/// The refusal or 0, and the count of blocks entered.
#[repr(C)]
#[derive(Debug, Copy, Clone)]
pub struct Ran {
    pub refusal: u8,
    pub entered: u32,
}

unsafe extern "C" {
    fn lk_read(
        bytes: *const u8,
        bytes_len: usize,
        ws: *mut NodeWords,
        val: *mut Values,
        cw: *mut CommandWords,
        bw: *mut BlockWords,
        births: *mut Births,
    ) -> Kept;

    fn lk_write(
        ws: *const NodeWords,
        val: *const Values,
        cw: *const CommandWords,
        bw: *const BlockWords,
        nodes: u16,
        commands: u16,
        blocks: u16,
        out: *mut u8,
        out_len: usize,
    ) -> Written;

    fn lk_run(
        attached: *const u8,
        attached_len: usize,
        atcs: u16,
        timer5: u16,
        timer10: u16,
        timer15: u16,
        ws: *const NodeWords,
        val: *const Values,
        cw: *const CommandWords,
        bw: *const BlockWords,
        nodes: u16,
        commands: u16,
        blocks: u16,
        start: u32,
        items: *const i16,
        items_len: usize,
        held: *const u8,
        held_len: usize,
        flags: *const u8,
        flags_len: usize,
        times: *const i16,
        times_len: usize,
        vars: *mut i32,
        vars_len: usize,
        budget: u32,
    ) -> Ran;

    fn lk_run_all(
        attached: *const u8,
        attached_len: usize,
        atcs: u16,
        timer5: u16,
        timer10: u16,
        timer15: u16,
        ws: *const NodeWords,
        val: *const Values,
        cw: *const CommandWords,
        bw: *const BlockWords,
        nodes: u16,
        commands: u16,
        blocks: u16,
        setup: u32,
        saves: u32,
        items: *const i16,
        items_len: usize,
        held: *const u8,
        held_len: usize,
        flags: *const u8,
        flags_len: usize,
        times: *const i16,
        times_len: usize,
        vars: *mut i32,
        vars_len: usize,
        refusals: *mut [u8; LANES],
        entered: *mut [u32; LANES],
    ) -> Walked;

    fn lk_reclaim(
        ws: *mut NodeWords,
        val: *mut Values,
        cw: *mut CommandWords,
        bw: *mut BlockWords,
        births: *mut Births,
        nodes: u16,
        commands: u16,
        blocks: u16,
        compiles: u32,
        roots: *const u32,
        roots_len: usize,
        moved: *mut MovedWords,
    ) -> Kept;
}

/// Reads an image into the arrays of a script.
pub fn read(image: &[u8], a: &mut Arrays) -> Kept {
    // SAFETY: the slice and the arrays are as the library takes them, and none overlaps.
    unsafe {
        lk_read(
            image.as_ptr(),
            image.len(),
            &mut *a.ws,
            &mut *a.val,
            &mut *a.cw,
            &mut *a.bw,
            &mut *a.births,
        )
    }
}

/// Writes the image of a script.
pub fn write(a: &Arrays, out: &mut [u8]) -> Written {
    // SAFETY: as in `read`.
    unsafe {
        lk_write(
            &*a.ws,
            &*a.val,
            &*a.cw,
            &*a.bw,
            a.nodes,
            a.commands,
            a.blocks,
            out.as_mut_ptr(),
            out.len(),
        )
    }
}

/// Runs a script, and writes the save's variables.
pub fn run(sheet: &Sheet, a: &Arrays, start: BlockId, save: &mut Save, budget: u32) -> Ran {
    let [timer5, timer10, timer15] = sheet.timers.map(|timer| timer.0);
    // SAFETY: as in `read`; only the variables are written.
    unsafe {
        lk_run(
            sheet.attached.as_ptr(),
            sheet.attached.len(),
            sheet.atcs,
            timer5,
            timer10,
            timer15,
            &*a.ws,
            &*a.val,
            &*a.cw,
            &*a.bw,
            a.nodes,
            a.commands,
            a.blocks,
            start.into(),
            save.items.as_ptr(),
            save.items.len(),
            save.atcs.as_ptr(),
            save.atcs.len(),
            save.flags.as_ptr(),
            save.flags.len(),
            save.times.as_ptr(),
            save.times.len(),
            save.variables.as_mut_ptr(),
            save.variables.len(),
            budget,
        )
    }
}

/// Runs a script for many saves, and writes their variables; for each save the refusal and the count go to the two arrays.
pub fn run_all(
    sheet: &Sheet,
    a: &Arrays,
    setup: BlockId,
    saves: &mut Saves,
    refusals: &mut [u8; LANES],
    entered: &mut [u32; LANES],
) -> Walked {
    let [timer5, timer10, timer15] = sheet.timers.map(|timer| timer.0);
    // SAFETY: as in `read`; only the variables and the two arrays are written.
    unsafe {
        lk_run_all(
            sheet.attached.as_ptr(),
            sheet.attached.len(),
            sheet.atcs,
            timer5,
            timer10,
            timer15,
            &*a.ws,
            &*a.val,
            &*a.cw,
            &*a.bw,
            a.nodes,
            a.commands,
            a.blocks,
            setup.into(),
            saves.many,
            saves.items.as_ptr(),
            saves.items.len(),
            saves.atcs.as_ptr(),
            saves.atcs.len(),
            saves.flags.as_ptr(),
            saves.flags.len(),
            saves.times.as_ptr(),
            saves.times.len(),
            saves.variables.as_mut_ptr(),
            saves.variables.len(),
            refusals,
            entered,
        )
    }
}

/// Takes back what the roots do not reach, and tells where each block is.
pub fn reclaim(a: &mut Arrays, roots: &[u32], moved: &mut MovedWords) -> Kept {
    // SAFETY: as in `read`.
    unsafe {
        lk_reclaim(
            &mut *a.ws,
            &mut *a.val,
            &mut *a.cw,
            &mut *a.bw,
            &mut *a.births,
            a.nodes,
            a.commands,
            a.blocks,
            a.compiles,
            roots.as_ptr(),
            roots.len(),
            moved,
        )
    }
}

pub use bill::*;
pub use check::*;
pub use rights::*;
pub use settings::*;
pub use shopper::*;
pub use shops::*;
pub use stage::*;
pub use text::*;

mod bill;
mod check;
mod rights;
mod settings;
mod shopper;
mod shops;
mod stage;
mod text;
