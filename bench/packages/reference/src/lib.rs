//! Document 01, with document 02's line codes, odd orders, forecasts, quiet sweeps, rounded roots and joined sheets, in
//! plain Rust. It shares nothing with the library that it is compared with, nor with the library's wrapper. Its square
//! root is found by whole numbers; its runs use the processor's, and tell by whole numbers whether it is exact.
#![forbid(unsafe_code)]

pub mod array;
pub mod by_hand;
mod checks;
pub mod forecast;
pub mod listing;
mod numbers;
pub mod ordering;
pub mod plain;
pub mod records;
mod refusal;
pub mod root;
pub mod rotation;
pub mod sheet;
pub mod sizes;
mod tile;

pub use refusal::Refusal;

/// How a run is made. Either way it leaves and answers the same.
#[derive(Clone, Copy, PartialEq)]
pub enum Way {
    /// All sweeps are made, and the plain run is tested for refusal 8 after each step.
    Whole,
    /// The run ends after the first quiet sweep, and is tested for refusal 8 at its end.
    Short,
}
