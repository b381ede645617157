//! One stock's bytes: its record of 240 bytes and its 512 places of times and of prices.

use second::{Mean, Setup, Stock, Trade, LIMIT, PARTICIPANTS, TRADING};

use crate::field::*;
use crate::totals::{Totals, STATES};
use crate::PLACES;

/// One stock's part of a book.
pub(crate) struct Part<'a> {
    pub record: &'a mut [u32; WORDS],
    pub times: &'a mut [u32],
    pub prices: &'a mut [u32],
}

impl Part<'_> {
    /// The stock that the bytes hold, or none if the record counts more trades than there are places, or its totals are rubbish.
    pub fn read(&self) -> Option<Stock> {
        let record = &self.record;
        let count = wide(record, COUNT);
        let clock = record[CLOCK];
        if count > PLACES as u64 || Totals::of(record).is_rubbish(clock) {
            return None;
        }
        let late_w = record[END].saturating_sub(1_500_000);
        Some(Stock {
            setup: setup(&record[TIER..END]),
            end: record[END],
            state: record[STATE],
            clock,
            reference: Mean {
                sum: wide(record, REFERENCE_SUM),
                count: wide(record, REFERENCE_COUNT),
            },
            reference_start: record[START],
            hold_ended: u32::from(record[HOLD] == 0),
            limit_entry: record[ENTRY],
            pause_start: record[PAUSE],
            early_w_done: u32::from(clock >= 900_000),
            late_w_done: u32::from(clock >= late_w),
            f_done: u32::from(record[EARLY] == 0),
            bids: std::array::from_fn(|i| record[BIDS + i]),
            offers: std::array::from_fn(|i| record[OFFERS + i]),
            trades: self.trades(count as usize),
        })
    }

    fn trades(&self, count: usize) -> Vec<Trade> {
        let held = self.times[..count].iter().zip(&self.prices[..count]);
        held.map(|(&time, &price)| Trade { time, price }).collect()
    }

    /// Writes the stock's bytes after an accepted call. `trade` is the price of a T.
    pub fn write(&mut self, before: &Stock, after: &Stock, trade: Option<u32>) {
        let record = &mut self.record;
        record[STATE] = after.state;
        record[CLOCK] = after.clock;
        if after.f_done != before.f_done {
            record[EARLY] = 0;
        }
        record[ENTRY] = after.limit_entry;
        record[PAUSE] = after.pause_start;
        set_wide(record, REFERENCE_SUM, after.reference.sum);
        set_wide(record, REFERENCE_COUNT, after.reference.count);
        record[START] = after.reference_start;
        record[HOLD] = hold(record[HOLD], before, after);
        record[BIDS..OFFERS].copy_from_slice(&after.bids);
        record[OFFERS..COUNT].copy_from_slice(&after.offers);
        set_wide(record, COUNT, after.trades.len() as u64);
        let totals = Totals::of(record).after(before, after, trade);
        record[SPENT..].copy_from_slice(&totals.numbers());
        self.write_trades(before.trades.len(), &after.trades);
    }

    /// Writes the held trades, and zeroes the places that were freed. Other unused places are left alone.
    fn write_trades(&mut self, held_before: usize, trades: &[Trade]) {
        for (place, trade) in trades.iter().enumerate() {
            self.times[place] = trade.time;
            self.prices[place] = trade.price;
        }
        for place in trades.len()..held_before {
            self.times[place] = 0;
            self.prices[place] = 0;
        }
    }
}

/// A setup from its four numbers: tier, leverage, primary, close.
pub(crate) fn setup(numbers: &[u32]) -> Setup {
    Setup {
        tier: numbers[0],
        leverage: numbers[1],
        primary: numbers[2],
        close: numbers[3],
    }
}

/// A record as a setup leaves it.
pub(crate) fn start(setup: &Setup, end: u32) -> [u32; WORDS] {
    let mut record = [0; WORDS];
    record[TIER] = setup.tier;
    record[LEVERAGE] = setup.leverage;
    record[PRIMARY] = setup.primary;
    record[CLOSE] = setup.close;
    record[END] = end;
    record[EARLY] = 1;
    record
}

/// The marker `hold` after a call: 0 if h happened, 1 if the start was written, and otherwise unchanged.
fn hold(stood: u32, before: &Stock, after: &Stock) -> u32 {
    if after.hold_ended != 0 {
        0
    } else if before.hold_ended != 0 || starts_anew(before, after) {
        1
    } else {
        stood
    }
}

/// Whether a call wrote the reference's start, if the hold had not ended before the call.
///
/// In Trading only h and its Test write it, 30,000 after the old start. In Limit, leaving Limit
/// writes it. In the other states, every change to Trading or Limit writes it.
fn starts_anew(before: &Stock, after: &Stock) -> bool {
    match before.state {
        TRADING => after.reference_start != before.reference_start,
        _ => matches!(after.state, TRADING | LIMIT) && !keeps(before, after),
    }
}

/// Whether a call kept state, entry and reference, as every call does that stays in Limit.
///
/// If a call ends Limit and begins it again, the entry or the reference differs, since the same
/// entry and reference (sum and count) give the same bands.
pub(crate) fn keeps(before: &Stock, after: &Stock) -> bool {
    let kept = |stock: &Stock| (stock.state, stock.limit_entry, stock.reference);
    kept(after) == kept(before)
}

const _: () = assert!(OFFERS == BIDS + PARTICIPANTS && COUNT == OFFERS + PARTICIPANTS);
const _: () = assert!(SPENT == COUNT + 2 && LIMIT_STATES == SPENT + STATES);
const _: () = assert!(WORDS == LOWEST_TRADE + 1);
