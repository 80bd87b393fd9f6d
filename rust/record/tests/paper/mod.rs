//! Document 01's compiler and parser, written from its words alone.

pub mod compiler;
pub mod parser;
