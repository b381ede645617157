//! Plays every call of the C interface on a book's bytes, as docs/RECORD.md describes them.
//!
//! `record` converts one stock's bytes to a stock of the second implementation and writes a changed
//! one back; `totals` brings the day totals up to date, which the second implementation's stock does
//! not have; `call` checks the shapes and lets the second implementation check and do the call.

#![forbid(unsafe_code)]

mod call;
pub mod field;
mod record;
mod totals;

pub use call::{play, Call, Given, Lent};
pub use field::WORDS;
pub use totals::Totals;

/// Each stock owns this many places of times, and of prices.
pub const PLACES: usize = second::HELD_AT_MOST;
