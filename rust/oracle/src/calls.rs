//! The calls of the original: parse and compile as they are, with nothing checked before.

use crate::convert;
use crate::data;
use crate::plain::{Expr, Script, Sheet, Slot};
use crate::shop::{self, Shop, access};
use std::any::Any;
use std::cell::Cell;
use std::panic::{self, AssertUnwindSafe};
use std::sync::Once;
use std::thread;

/// The original panicked; the text is the panic's own.
#[derive(Debug, Clone, PartialEq, Eq)]
pub struct Panicked(pub String);

/// Enough for a walk that is 4,096 blocks deep, also in a build that is not optimised. The walk
/// holds two copies of its condition for each block, so a deep one over many long conditions runs
/// out of memory long before it runs out of stack.
const STACK: usize = 256 << 20;

thread_local! {
    static QUIET: Cell<bool> = const { Cell::new(false) };
}

/// Makes panics on quiet threads print nothing and leaves all others as they were.
fn silence_quiet_threads() {
    static ONCE: Once = Once::new();
    ONCE.call_once(|| {
        let before = panic::take_hook();
        panic::set_hook(Box::new(move |info| {
            if !QUIET.get() {
                before(info);
            }
        }));
    });
}

fn panic_text(payload: Box<dyn Any + Send>) -> Panicked {
    let text = match payload.downcast::<String>() {
        Ok(text) => *text,
        Err(payload) => payload
            .downcast::<&str>()
            .map_or_else(|_| String::new(), |t| t.to_string()),
    };
    Panicked(text)
}

/// Runs `body` on a thread with a large stack, on which panics print nothing. The calls that it
/// makes need no thread of their own, which saves most of their time.
pub fn on_large_stack<T: Send>(body: impl FnOnce() -> T + Send) -> Result<T, Panicked> {
    silence_quiet_threads();
    let quiet_body = || {
        QUIET.set(true);
        panic::catch_unwind(AssertUnwindSafe(body)).map_err(panic_text)
    };
    thread::scope(|scope| {
        let builder = thread::Builder::new().stack_size(STACK);
        let thread = builder
            .spawn_scoped(scope, quiet_body)
            .expect("a thread can be had");
        thread.join().expect("panics are caught inside")
    })
}

/// Runs `body` on a thread with a large stack, this one if it is one, and with `sheet` in force.
fn with_sheet<T: Send>(sheet: &Sheet, body: impl FnOnce() -> T + Send) -> Result<T, Panicked> {
    let body = || {
        data::set_sheet(sheet);
        body()
    };
    if QUIET.get() {
        return panic::catch_unwind(AssertUnwindSafe(body)).map_err(panic_text);
    }
    on_large_stack(body)
}

/// Reads the shop that starts at block `setup`, by the original `ShopParser`.
pub fn parse(sheet: &Sheet, script: &Script, setup: usize) -> Result<Vec<Slot>, Panicked> {
    with_sheet(sheet, || {
        let script = convert::script_in(script);
        let slots = access::parse(&script, convert::block_id(setup));
        slots.iter().map(convert::slot_out).collect()
    })
}

/// Compiles a shop and links it at block `setup`, by the original `ShopCompiler` and `replace`.
///
/// The shop is made from the slots by `Shop::with_slots`. Where the original panics after it has
/// pushed blocks, `script` keeps them, as it would there.
pub fn compile(
    sheet: &Sheet,
    script: &mut Script,
    setup: usize,
    slots: &[Slot],
) -> Result<(), Panicked> {
    let (after, answer) = with_sheet(sheet, || {
        let mut original = convert::script_in(script);
        let work = || {
            let shop = Shop::with_slots(slots.iter().take(shop::NUM_SLOTS).map(convert::slot_in));
            access::compile(&mut original, shop.slots(), convert::block_id(setup));
        };
        let answer = panic::catch_unwind(AssertUnwindSafe(work)).map_err(panic_text);
        (convert::script_out(&original), answer)
    })?;
    *script = after;
    answer
}

/// The negation of an expression, by the original `Expr::negate`.
pub fn negate(expr: &Expr) -> Expr {
    convert::expr_out(&convert::expr_in(expr).negate())
}

/// The constant that holds `value`, by the original `Expr::imm`.
pub fn imm(value: i32) -> Expr {
    convert::expr_out(&crate::event::Expr::imm(value))
}

/// Puts a sheet in force on this thread, for the calls of `Original`.
pub fn use_sheet(sheet: &Sheet) {
    data::set_sheet(sheet);
}

/// The original's own script, for calls whose time is taken: nothing is converted or caught.
pub struct Original(crate::event::Script);

/// The original's own slots.
pub struct OriginalSlots(Vec<shop::Slot>);

/// Converts slots; the sheet that they fit is in force.
pub fn original_slots(slots: &[Slot]) -> OriginalSlots {
    OriginalSlots(slots.iter().map(convert::slot_in).collect())
}

impl Original {
    /// Converts a script.
    pub fn new(script: &Script) -> Self {
        Self(convert::script_in(script))
    }

    /// Reads the shop that starts at block `setup`.
    pub fn parse(&self, setup: usize) -> OriginalSlots {
        OriginalSlots(access::parse(&self.0, convert::block_id(setup)))
    }

    /// Compiles slots and links them at block `setup`.
    pub fn compile(&mut self, setup: usize, slots: &OriginalSlots) {
        access::compile(&mut self.0, &slots.0, convert::block_id(setup));
    }
}
