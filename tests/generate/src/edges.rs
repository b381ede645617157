//! The edges of the exact mean: a mean that is one percent away from the reference, and a band at half a cent.

use second::{factor, width, Mean, Stock, Width};

/// A cent, and the half at which a band is rounded up, in hundredths of a ten-thousandth.
const CENT: i64 = 10_000;
const HALF: i64 = 5_000;

/// A band before it is rounded: of a mean it is `slope` times the mean, plus `step`, in hundredths of a ten-thousandth.
#[derive(Clone, Copy)]
pub struct Band {
    slope: i64,
    step: i64,
}

impl Band {
    /// The stock's lower and upper band at a time, for this mean and all on the same side of the small rule's 2,000.
    pub fn both(stock: &Stock, time: u32, mean: Mean) -> [Band; 2] {
        let k = i64::from(factor(stock.setup.leverage, stock.end, time));
        let (slope, step) = match width(stock.setup.tier, stock.setup.close) {
            Width::Percent(percent) => (k * i64::from(percent), 0),
            Width::Small if mean.sum < 2_000 * mean.count => (75 * k, 0),
            Width::Small => (0, 150_000 * k),
        };
        [(100 - slope, -step), (100 + slope, step)].map(|(slope, step)| Band { slope, step })
    }

    /// Whether the band is above 0, so that it has a half cent near it.
    pub fn is_positive(self, mean: Mean) -> bool {
        self.slope > 0 && self.times_count(mean) > 0
    }

    /// How far the band is past the half cent nearest to it, times the mean's count; less than 0 before it.
    pub fn past_half_cent(self, mean: Mean) -> i64 {
        let count = mean.count as i64;
        self.times_count(mean).rem_euclid(CENT * count) - HALF * count
    }

    /// The least sum of as many prices that brings the band to the same half cent.
    pub fn sum_at_half_cent(self, mean: Mean) -> u64 {
        let at_half = self.slope * mean.sum as i64 - self.past_half_cent(mean);
        (at_half.max(1) as u64).div_ceil(self.slope as u64)
    }

    fn times_count(self, mean: Mean) -> i64 {
        self.slope * mean.sum as i64 + self.step * mean.count as i64
    }
}

/// How far a mean is past one percent above the reference, and past one percent below it, in hundredths of a ten-thousandth and times
/// both counts; less than 0 before it.
pub fn past_one_percent(mean: Mean, reference: Mean) -> [i64; 2] {
    let ours = (100 * mean.sum * reference.count) as i64;
    let theirs = (reference.sum * mean.count) as i64;
    [ours - 101 * theirs, 99 * theirs - ours]
}

/// The mean of a stock's window.
pub fn window(stock: &Stock) -> Mean {
    let prices = stock.trades.iter().map(|trade| u64::from(trade.price));
    Mean {
        sum: prices.sum(),
        count: stock.trades.len() as u64,
    }
}
