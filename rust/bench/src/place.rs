//! Where the library's code lies: `LK_PAD`, a multiple of 16 that is set when this program is compiled, moves it by so many bytes.
//!
//! The linker lays the sections of this program before those of the library, so that what is skipped here moves the library.

use std::arch::global_asm;

const PAD: usize = match option_env!("LK_PAD") {
    Some(text) => number(text.as_bytes()),
    None => 0,
};

const fn number(digits: &[u8]) -> usize {
    let (mut at, mut sum) = (0, 0);
    while at < digits.len() {
        sum = 10 * sum + (digits[at] - b'0') as usize;
        at += 1;
    }
    sum
}

global_asm!(
    ".pushsection .text.lk_pad, \"ax\", @progbits",
    ".balign 16",
    ".globl lk_pad",
    "lk_pad:",
    "ret",
    ".skip {pad} + 15",
    ".popsection",
    pad = const PAD,
);

unsafe extern "C" {
    fn lk_pad();
}

/// Keeps the skipped bytes in the program.
pub fn hold() {
    unsafe { lk_pad() }
}
