//! The original shop module of unplug behind a plain interface, and document 01's own rules.
//!
//! `calls` runs the original; `plain` has the types of the interface; `image` and `slots` read and
//! write document 01's bytes; `rules` says which refusal document 01 asks for.

// The original names outside crates; these are what it gets under their names.
extern crate oracle_derives as num_enum;
extern crate oracle_derives as thiserror;
extern crate oracle_derives as unplug_proc;
extern crate outside as bitflags;
extern crate outside as byteorder;
extern crate outside as tracing;

pub mod calls;
mod convert;
pub mod image;
pub mod plain;
pub mod rules;
pub mod slots;

// Much of a stand-in is there for the original to compile, not to be called.
#[allow(dead_code)]
mod standins;
use standins::{common, data};

include!(concat!(env!("OUT_DIR"), "/tree/root.rs"));
