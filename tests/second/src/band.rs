//! Band arithmetic: percent, factor, bands and mean, for numbers already known to be in range.

use crate::stock::Trade;

/// The exact mean of some prices, as their sum and their count; without prices both are 0.
#[derive(Clone, Copy, Debug, Default, PartialEq, Eq)]
pub struct Mean {
    pub sum: u64,
    pub count: u64,
}

impl Mean {
    /// The mean of one price.
    pub fn of_price(price: u32) -> Mean {
        Mean {
            sum: price.into(),
            count: 1,
        }
    }

    /// The mean of the held trades' prices, or none when the window is empty.
    pub(crate) fn of_trades(trades: &[Trade]) -> Option<Mean> {
        let sum = trades.iter().map(|trade| u64::from(trade.price)).sum();
        let count = trades.len() as u64;
        (count != 0).then_some(Mean { sum, count })
    }

    /// The mean as an answer shows it, a half rounded up; 0 without prices.
    pub fn rounded(self) -> u32 {
        match self.count {
            0 => 0,
            count => ((2 * self.sum + count) / (2 * count)) as u32,
        }
    }

    /// The Test's comparison: this mean is one percent or more away from the reference.
    pub(crate) fn is_far_from(self, reference: Mean) -> bool {
        // Both means times both counts, so that neither is divided.
        let (ours, theirs) = (self.sum * reference.count, reference.sum * self.count);
        100 * ours.abs_diff(theirs) >= theirs
    }
}

/// How wide the bands are. The previous close sets it for the whole day.
#[derive(Clone, Copy, Debug, PartialEq, Eq)]
pub enum Width {
    Percent(u32),
    Small,
}

/// The width by the previous close: over 30,000, 7,500 to 30,000, below 7,500.
pub fn width(tier: u32, close: u32) -> Width {
    if close > 30_000 {
        Width::Percent(if tier == 1 { 5 } else { 10 })
    } else if close >= 7_500 {
        Width::Percent(20)
    } else {
        Width::Small
    }
}

/// Factor k: leverage, doubled early and late in the session.
pub fn factor(leverage: u32, end: u32, time: u32) -> u32 {
    if time < 900_000 || time >= end - 1_500_000 {
        2 * leverage
    } else {
        leverage
    }
}

/// The lower and the upper band about a reference.
pub(crate) fn bands(reference: Mean, width: Width, k: u32) -> (u32, u32) {
    let Mean { sum, count } = reference;
    let k = u64::from(k);
    // As sum is the reference times count, a is document 01's A times count.
    let a = match width {
        Width::Percent(percent) => k * u64::from(percent) * sum,
        Width::Small => k * (75 * sum).min(150_000 * count),
    };
    let lower = to_cent((100 * sum).saturating_sub(a), count);
    let upper = to_cent(100 * sum + a, count);
    (lower, if upper == 0 { 100 } else { upper })
}

/// Divides hundredths of a ten-thousandth by a count and rounds to the nearest cent, in ten-thousandths.
fn to_cent(value: u64, count: u64) -> u32 {
    ((value + 5_000 * count) / (10_000 * count) * 100) as u32
}

#[cfg(test)]
mod tests {
    use super::*;

    /// The mean of these prices, of which there is at least one.
    fn mean(prices: &[u32]) -> Mean {
        let trade = |&price: &u32| Trade { time: 0, price };
        let trades: Vec<Trade> = prices.iter().map(trade).collect();
        Mean::of_trades(&trades).unwrap()
    }

    /// The bands about a reference of one price.
    fn bands_of_price(price: u32, width: Width, k: u32) -> (u32, u32) {
        bands(Mean::of_price(price), width, k)
    }

    #[test]
    fn b1_to_b7_bands() {
        let ten = Width::Percent(10);
        assert_eq!(bands_of_price(115_000, ten, 1), (103_500, 126_500), "B1");
        assert_eq!(bands_of_price(115_000, ten, 2), (92_000, 138_000), "B2");
        assert_eq!(
            bands_of_price(31_000, Width::Percent(5), 1),
            (29_500, 32_600),
            "B3"
        );
        assert_eq!(bands_of_price(5_000, Width::Small, 1), (3_500, 6_500), "B4");
        assert_eq!(bands_of_price(1_000, Width::Small, 1), (300, 1_800), "B5");
        assert_eq!(bands_of_price(1_000, Width::Small, 2), (0, 2_500), "B6");
        assert_eq!(bands_of_price(28, Width::Small, 1), (0, 100), "B7");
    }

    #[test]
    fn b8_and_b9_percent() {
        for tier in [1, 2] {
            assert_eq!(width(tier, 7_499), Width::Small, "B8");
            assert_eq!(width(tier, 7_500), Width::Percent(20), "B8");
            assert_eq!(width(tier, 30_000), Width::Percent(20), "B9");
        }
        assert_eq!(width(1, 30_001), Width::Percent(5), "B9");
        assert_eq!(width(2, 30_001), Width::Percent(10));
    }

    #[test]
    fn b10_the_printed_value() {
        assert_eq!(mean(&[100_999]).rounded(), 100_999, "B10");
        assert_eq!(mean(&[101_000]).rounded(), 101_000, "B10");
        assert_eq!(mean(&[100_999, 101_000]).rounded(), 101_000, "B10");
        assert_eq!(mean(&[100_999, 100_999, 101_000]).rounded(), 100_999);
    }

    #[test]
    fn b10_the_exact_test() {
        let reference = Mean::of_price(100_000);
        let is_far = |sum, count| Mean { sum, count }.is_far_from(reference);
        assert!(!is_far(100_999, 1), "B10");
        assert!(is_far(101_000, 1), "B10");
        assert!(!is_far(201_999, 2), "B10");
        assert!(is_far(202_000, 2), "B10");
        // Below the reference: 99,000.25 is printed as 99,000 and stays.
        assert!(!is_far(99_001, 1));
        assert!(is_far(99_000, 1));
        assert!(!is_far(396_001, 4));
        assert!(is_far(396_000, 4));
        // The smallest step of a full window.
        assert!(!is_far(512 * 101_000 - 1, 512));
        assert!(is_far(512 * 101_000, 512));
    }

    #[test]
    fn b11_the_printed_value() {
        assert_eq!(mean(&[1, 2]).rounded(), 2, "B11");
        assert_eq!(mean(&[1, 1, 2]).rounded(), 1, "B11");
        assert_eq!(mean(&[999_999_999; 512]).rounded(), 999_999_999);
        assert_eq!(Mean::default().rounded(), 0);
    }

    #[test]
    fn b11_the_exact_test() {
        let half = mean(&[1, 2]);
        assert_eq!((half.sum, half.count), (3, 2));
        assert!(half.is_far_from(Mean::of_price(2)), "B11");
        assert!(Mean::of_price(2).is_far_from(half), "B11");
        assert!(!mean(&[1, 2, 2, 1]).is_far_from(half), "B11");
        assert!(!half.is_far_from(mean(&[1, 1, 2, 2])), "B11");
        assert_eq!(Mean::of_trades(&[]), None);
    }

    /// One percent above 100,000.5 is 101,000.505, and one percent below it 99,000.495.
    #[test]
    fn the_reference_of_the_test_is_exact_too() {
        let reference = mean(&[100_000, 100_001]);
        assert!(Mean::of_price(101_001).is_far_from(reference));
        let edge = |sum| Mean { sum, count: 200 }.is_far_from(reference);
        assert!(edge(20_200_101));
        assert!(!edge(20_200_100));
        assert!(edge(19_800_099));
        assert!(!edge(19_800_100));
    }

    #[test]
    fn the_farthest_means_fit() {
        let least = mean(&[1; 512]);
        let most = mean(&[999_999_999; 512]);
        assert!(most.is_far_from(least) && least.is_far_from(most));
        assert!(!most.is_far_from(Mean::of_price(999_999_999)));
    }

    #[test]
    fn an_upper_band_of_nought_becomes_a_cent() {
        assert_eq!(bands_of_price(1, Width::Small, 1), (0, 100));
        assert_eq!(bands_of_price(1, Width::Percent(5), 1), (0, 100));
        assert_eq!(bands(mean(&[28, 29]), Width::Small, 1), (0, 100));
    }

    #[test]
    fn one_rounding_only() {
        let five = Width::Percent(5);
        // 108.40 + 5.42 cents is 113.82; with A rounded first it would be 113.40.
        assert_eq!(bands_of_price(10_840, five, 1), (10_300, 11_400));
        // 107.60 - 5.38 cents is 102.22; with A rounded first it would be 102.60.
        assert_eq!(bands_of_price(10_760, five, 1), (10_200, 11_300));
    }

    /// Each pair of references is printed as the same price; only the second reaches the half cent.
    #[test]
    fn the_reference_of_the_bands_is_not_rounded() {
        let five = Width::Percent(5);
        let cases = [
            (4_201_999, 4_202_000, 42, five, 100_048),
            (2_000_999, 2_001_000, 19, five, 105_316),
            (4_599, 4_600, 7, Width::Small, 657),
        ];
        let wanted = [
            [(95_000, 105_000), (95_000, 105_100)],
            [(100_000, 110_600), (100_100, 110_600)],
            [(200, 1_100), (200, 1_200)],
        ];
        for ((under, half, count, width, printed), pair) in cases.into_iter().zip(wanted) {
            for (sum, wanted) in [under, half].into_iter().zip(pair) {
                let reference = Mean { sum, count };
                assert_eq!(reference.rounded(), printed);
                assert_eq!(bands(reference, width, 1), wanted, "{sum} {count}");
            }
        }
    }

    /// The lesser of 15 cents and 75 percent, on both sides of a mean of 2,000.
    #[test]
    fn the_small_rule_with_a_count() {
        assert_eq!(bands(mean(&[1_999, 2_000]), Width::Small, 1), (500, 3_500));
        let over = mean(&[2_000, 2_000, 2_001]);
        assert_eq!(bands(over, Width::Small, 1), (500, 3_500));
        let under = mean(&[1_000, 1_000, 1_001]);
        assert_eq!(bands(under, Width::Small, 1), (300, 1_800));
    }

    /// 999.5 is printed as 1,000, which is its upper band; the exact mean lies between its bands.
    #[test]
    fn a_printed_reference_at_its_band() {
        let reference = mean(&[999, 1_000]);
        assert_eq!(reference.rounded(), 1_000);
        assert_eq!(bands(reference, Width::Percent(5), 1), (900, 1_000));
    }

    #[test]
    fn factor_is_doubled_early_and_late() {
        let end = 23_400_000;
        assert_eq!(factor(3, end, 899_999), 6);
        assert_eq!(factor(3, end, 900_000), 3);
        assert_eq!(factor(3, end, end - 1_500_001), 3);
        assert_eq!(factor(3, end, end - 1_500_000), 6);
    }

    #[test]
    fn the_widest_bands_fit() {
        assert_eq!(
            bands_of_price(999_999_999, Width::Percent(20), 6),
            (0, 2_200_000_000)
        );
        let full = mean(&[999_999_999; 512]);
        assert_eq!(bands(full, Width::Percent(20), 6), (0, 2_200_000_000));
    }
}
