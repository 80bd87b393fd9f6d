//! Makes cases from a seed and records what the original answers, where document 01 asks it.

pub mod compile_cases;
pub mod format;
pub mod limits;
pub mod make;
pub mod parse_cases;
pub mod random;
pub mod small;
