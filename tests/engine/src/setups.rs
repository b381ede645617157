//! Setups at the edges of their ranges.

use crate::chance::Chance;
use crate::prices::HIGHEST;

pub const SHORTEST: u32 = 3_600_000;
pub const LONGEST: u32 = 23_400_000;

/// A session's end. Most sessions are short, so that the test reaches their ends.
pub fn end(chance: &mut Chance) -> u32 {
    match chance.below(8) {
        0 => LONGEST - chance.below(2),
        1 => chance.between(SHORTEST, LONGEST),
        2 | 3 => SHORTEST + chance.below(2),
        _ => chance.between(SHORTEST, SHORTEST + 600_000),
    }
}

/// A list with a valid setup for each of this many stocks.
pub fn list(chance: &mut Chance, stocks: usize) -> Vec<u32> {
    (0..stocks).flat_map(|_| one(chance)).collect()
}

/// Tier, leverage, primary and close, all in range.
pub fn one(chance: &mut Chance) -> [u32; 4] {
    let tier = chance.between(1, 2);
    let leverage = if tier == 1 { 1 } else { chance.between(1, 3) };
    [tier, leverage, chance.below(16), close(chance)]
}

/// A close, often at or next to a limit between two percents.
fn close(chance: &mut Chance) -> u32 {
    match chance.below(8) {
        0 => chance.pick(&[1, 2, 28, 1_000]),
        1 => chance.between(1, 7_498),
        2 => chance.pick(&[7_499, 7_500]),
        3 => chance.pick(&[30_000, 30_001]),
        4 => chance.pick(&[HIGHEST, HIGHEST - 1]),
        _ => chance.between(10_000, 500_000),
    }
}
