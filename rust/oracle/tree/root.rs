// The original's part of the crate root, laid out by build.rs. Its warnings are not ours to mend.

#[allow(warnings)]
#[macro_use]
#[path = "../original/macros.rs"]
mod macros;

#[allow(warnings)]
mod event;

#[allow(warnings)]
mod shop;
