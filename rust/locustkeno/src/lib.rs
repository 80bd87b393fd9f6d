//! The shop engine of Locustkeno: a safe crate over the proved static library.
//!
//! A stage script holds a shop, a web of linked blocks that a parser reads as twenty slots. Every
//! call here is one call of the library, whose promises are proved; this crate only hands memory
//! over. What a call says no with is a [`Refused`], by the numbers of documents 01 and 02.
//!
//! [`Shop`], [`Slot`] and [`Requirement`] are those of unplug's `shop`, but that a call is given the [`Sheet`] and the block at
//! which the shop begins, and a compile its [`Loader`].
//!
//! ```
//! use locustkeno::{BUDGET, Item, Loader, Refusal, Refused, Save, Script, Sheet, Shop};
//! let sheet = Sheet::new(&[None; 8], 0, [Item(0), Item(1), Item(2)]);
//! let mut script = Script::new();
//! let mut shop = Shop::parse(&script, &sheet, 0)?;
//! let slot = &mut shop.slots_mut()[0];
//! (slot.item, slot.limit) = (Some(Item(7)), 3);
//! shop.compile(&mut script, &sheet, Loader::Disc, 0)?;
//!
//! let mut save = Save::new(&sheet).with_item(Item(7), 1);
//! assert_eq!(script.run(&sheet, 0, &mut save, BUDGET).refusal, None);
//! assert_eq!(save.pair(0), (7, 2));
//!
//! shop.slots_mut()[0].item = Some(Item(8));
//! let refused = shop.compile(&mut script, &sheet, Loader::Disc, 0).unwrap_err();
//! assert_eq!((refused.refusal(), refused.number()), (Refusal::BadShop, 8));
//! # Ok::<(), Refused>(())
//! ```
//!
//! # Stack
//!
//! A thread has 2 megabytes of stack unless it is told otherwise, which every call can do with. On a smaller one, this was
//! enough on the largest and nastiest scripts: 32 kilobytes for [`Script::read`], [`Shop::preview`], [`Shop::edit`],
//! [`Shop::shown_to`], [`Slot::settings`] and [`Save::bill`], 64 for [`Shop::check`], 160 for [`Script::write`],
//! [`Script::run`] and [`Script::compile`], 512 for [`Script::parse`] and [`Script::run_all`], 768 for [`Script::reclaim`]
//! and [`Shopper::shop`].

#![deny(missing_docs, unsafe_code)]

mod arrays;
mod bill;
mod block;
mod check;
#[allow(unsafe_code)]
mod ffi;
mod lanes;
mod moves;
mod place;
mod reclaim;
mod refused;
mod requirement;
mod rights;
mod room;
mod save;
mod script;
mod settings;
mod sheet;
mod shop;
mod shopper;
mod stage;
mod text;
mod view;

pub use arrays::{Arrays, Births, BlockWords, CommandWords, NodeWords, Values};
pub use bill::{Basket, Bill, Line, Tariff};
pub use block::BlockId;
pub use check::{Finding, Found};
pub use lanes::{LANES, Saves, Walk};
pub use place::{Part, Place};
pub use reclaim::Moved;
pub use refused::{Refusal, Refused};
pub use requirement::{Requirement, Requirements};
pub use rights::{Content, Edit, Right, Rights, USERS};
pub use room::{Room, Use};
pub use save::{COUNT_FIRST, FLAGS, ITEM_FIRST, Save, TIMES, VARIABLES};
pub use script::Preview;
pub use script::{BUDGET, Loader, Ran, Script};
pub use settings::Settings;
pub use sheet::{Atc, Item, Sheet};
pub use shop::{Codes, ENTRIES, NUM_SLOTS, Shop, ShopArrays, Slot};
pub use shopper::{Shopper, Step, WISHES};
pub use stage::{STAGE_BYTES, Stage};
pub use text::{BadText, TextReason};
pub use view::{Block, Command, Expr, Op1, Op2};

/// The programs of a page, run with the tests of this documentation.
#[cfg(doctest)]
#[doc = include_str!("../../../docs/WEEK.md")]
struct Week;
