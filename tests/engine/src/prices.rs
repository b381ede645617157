//! Prices to test with: at the bands and next to them, and at the edge of the one percent test.

use second::Answer;

use crate::chance::Chance;

pub const HIGHEST: u32 = 999_999_999;

/// What the choice of a price depends on: the stock's last answer, its close, its reference, its window and its trades of the day.
pub struct Sight {
    pub answer: Answer,
    pub close: u32,
    /// The sum and the count of the reference, which may be rubbish.
    pub reference: (u64, u64),
    /// How many trades are held, and the sum of their prices.
    pub count: u64,
    pub sum: u64,
    /// The highest and the lowest trade of the day, which may be rubbish.
    pub extremes: [u32; 2],
}

/// A price for T, O or R.
pub fn price(chance: &mut Chance, sight: &Sight) -> u32 {
    let answer = &sight.answer;
    if chance.one_in(24) {
        return extreme(chance);
    }
    if chance.one_in(12) {
        let extreme = chance.pick(&sight.extremes);
        return chance.about(extreme);
    }
    if answer.upper == 0 {
        return without_bands(chance, sight);
    }
    match chance.below(8) {
        0 => below_or_at(chance, answer.lower),
        1 => answer.upper + chance.below(2),
        2 => answer.reference,
        3..=5 => edge_of_test(chance, sight),
        _ => chance.between(answer.lower.max(1), answer.upper.min(HIGHEST)),
    }
}

fn below_or_at(chance: &mut Chance, price: u32) -> u32 {
    price.saturating_sub(chance.below(2))
}

/// 0, which is absent, and prices at and past the edges of the range.
fn extreme(chance: &mut Chance) -> u32 {
    chance.pick(&[0, 1, 2, 100, HIGHEST, HIGHEST + 1, u32::MAX])
}

/// A price near the close or the reference, for use before the first reference and in a pause.
fn without_bands(chance: &mut Chance, sight: &Sight) -> u32 {
    let middle = match sight.answer.reference {
        0 => sight.close,
        reference => reference,
    };
    let near = middle / 20;
    match chance.below(4) {
        0 => middle,
        1 => chance.between(1, 3_000),
        _ => chance.between(
            (middle - near).max(1),
            middle.saturating_add(near).min(HIGHEST),
        ),
    }
}

/// The price of a trade after which the exact mean is just, or just not, one percent away. In a window of several trades the printed mean
/// is often the same in both cases.
fn edge_of_test(chance: &mut Chance, sight: &Sight) -> u32 {
    let (sum, count) = sight.reference;
    let (reference, divisor) = (u128::from(sum), u128::from(count.max(1)));
    let held = u128::from(sight.count) + 1;
    let short = u128::from(chance.one_in(2));
    // The least sum that is 101 percent of the reference, and the greatest that is 99 percent.
    let wanted = if chance.one_in(2) {
        (101 * reference * held).div_ceil(100 * divisor) - short.min(reference)
    } else {
        99 * reference * held / (100 * divisor) + short
    };
    let price = wanted.saturating_sub(sight.sum.into());
    price.clamp(1, HIGHEST.into()) as u32
}

/// One side of a quote.
pub fn side(chance: &mut Chance, sight: &Sight) -> u32 {
    let answer = &sight.answer;
    match chance.below(20) {
        0 => extreme(chance),
        1..=3 => 0,
        4..=6 => below_or_at(chance, answer.lower),
        7..=9 => answer.upper.wrapping_add(chance.below(2)),
        10 => chance.about(answer.lower),
        11 => chance.about(answer.upper),
        12 => chance.about(answer.bid),
        13 => chance.about(answer.offer),
        _ => chance.between(answer.lower, answer.upper),
    }
}
