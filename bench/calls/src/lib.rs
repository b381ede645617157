//! What the benchmarks share: calls on a book, the sides that play them, and the clock.

pub mod call;
pub mod clock;
pub mod sides;
