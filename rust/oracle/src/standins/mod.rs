//! Stand-ins for the modules of the original that are not among its sources at hand.

pub mod analysis;
pub mod common;
pub mod data;
pub mod serialize;
