//! The day totals: which of them are rubbish, and what an accepted call makes of them.

use second::{Stock, LATE_PAUSE, LIMIT, PAUSED};

use crate::field::*;
use crate::record;

pub(crate) const STATES: usize = 6;
const PRICE_AT_MOST: u32 = 999_999_999;

/// What a stock's day has come to so far.
#[derive(Clone, Copy, Debug, Default, PartialEq, Eq)]
pub struct Totals {
    /// The time that was spent in each state.
    pub spent: [u32; STATES],
    /// How often Limit was entered.
    pub limit_states: u32,
    /// How many pauses began, late ones too.
    pub pauses: u32,
    /// The highest accepted T, 0 before any.
    pub highest: u32,
    /// The lowest accepted T, 0 before any.
    pub lowest: u32,
}

impl Totals {
    pub(crate) fn of(record: &[u32; WORDS]) -> Totals {
        Totals {
            spent: std::array::from_fn(|state| record[SPENT + state]),
            limit_states: record[LIMIT_STATES],
            pauses: record[PAUSES],
            highest: record[HIGHEST_TRADE],
            lowest: record[LOWEST_TRADE],
        }
    }

    /// The ten numbers in the order of a record.
    pub fn numbers(&self) -> [u32; WORDS - SPENT] {
        let [waiting, trading, limit, paused, late_pause, closed] = self.spent;
        [
            waiting,
            trading,
            limit,
            paused,
            late_pause,
            closed,
            self.limit_states,
            self.pauses,
            self.highest,
            self.lowest,
        ]
    }

    /// Whether the six times do not add up to the clock, or a price is over its range. The sum does not wrap.
    pub(crate) fn is_rubbish(&self, clock: u32) -> bool {
        let sum: u64 = self.spent.iter().map(|&time| u64::from(time)).sum();
        sum != u64::from(clock) || self.highest.max(self.lowest) > PRICE_AT_MOST
    }

    /// The totals after an accepted call. `trade` is the price of a T.
    pub(crate) fn after(mut self, before: &Stock, after: &Stock, trade: Option<u32>) -> Totals {
        self.spent[before.state as usize] += after.clock - before.clock;
        let enters_limit = after.state == LIMIT && !record::keeps(before, after);
        self.limit_states = self.limit_states.saturating_add(enters_limit.into());
        let begins_pause = is_paused(after) && !is_paused(before);
        self.pauses = self.pauses.saturating_add(begins_pause.into());
        if let Some(price) = trade {
            self.highest = price.max(self.highest);
            self.lowest = match self.lowest {
                0 => price,
                lowest => price.min(lowest),
            };
        }
        self
    }
}

fn is_paused(stock: &Stock) -> bool {
    matches!(stock.state, PAUSED | LATE_PAUSE)
}
