//! The page's rules, written a second time in plain Rust.
//!
//! Nothing here is shared with the proved crates: the rules were written from
//! the page alone, so that a slip in one place is not a slip in both.

pub mod generate;
pub mod generate_inputs;
pub mod generate_sheets;
pub mod harness;
pub mod harness_sheets;
pub mod image;
pub mod mistake;
pub mod numbers;
pub mod plain;
pub mod process;
pub mod programs;
#[cfg(feature = "proved")]
pub mod proved;
pub mod reading;
pub mod run;
pub mod sheet;
pub mod sound;
pub mod workload;
pub mod writer;
