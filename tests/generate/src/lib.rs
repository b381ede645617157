//! Days aimed at ties, bands, the one percent test, means that are fractions and full windows, each from one seed.
//!
//! The generator plays a day through the second implementation while it writes the day. It chooses each
//! message by the stock's state, bands, mean and moments still to come, so that the message is at an edge.

#![forbid(unsafe_code)]

pub mod chance;
pub mod edges;
mod ending;
mod moves;
mod plan;
mod player;
mod prices;
pub mod replay;
mod tape;

/// The day of this seed.
pub fn day(seed: u64) -> Vec<u8> {
    let mut player = plan::begin(seed);
    player.play();
    ending::finish(&mut player)
}
