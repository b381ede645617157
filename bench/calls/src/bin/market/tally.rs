//! Counts what the traffic causes.

use std::ops::AddAssign;

use second::{LATE_PAUSE, LIMIT, PAUSED, TRADING};

/// How many calls there are, and how many messages are refused.
#[derive(Clone, Copy, Debug, Default, PartialEq, Eq)]
pub struct Count {
    pub calls: u64,
    pub refused: u64,
}

impl AddAssign for Count {
    fn add_assign(&mut self, other: Count) {
        self.calls += other.calls;
        self.refused += other.refused;
    }
}

/// How often each event happens, over all stocks.
#[derive(Default)]
pub struct Tally {
    pub count: Count,
    pub quotes: u64,
    pub trades: u64,
    /// Limit states that begin, and how many of them end without a pause.
    pub limits: u64,
    pub left: u64,
    /// Pauses, how many of them the primary declares, and how many it ends.
    pub pauses: u64,
    pub declared: u64,
    pub reopenings: u64,
    /// The number of trades that a message's stock holds: the sum over all messages, and the maximum.
    pub held: u64,
    pub most_held: u64,
}

impl Tally {
    /// Counts a call that took a stock from one state to another, or left its state unchanged.
    pub fn change(&mut self, from: u32, to: u32) {
        let paused = |state| state == PAUSED || state == LATE_PAUSE;
        self.limits += u64::from(from != LIMIT && to == LIMIT);
        self.left += u64::from(from == LIMIT && to == TRADING);
        self.pauses += u64::from(!paused(from) && paused(to));
    }

    pub fn hold(&mut self, held: u64) {
        self.held += held;
        self.most_held = self.most_held.max(held);
    }
}

impl AddAssign for Tally {
    fn add_assign(&mut self, other: Tally) {
        self.count += other.count;
        self.quotes += other.quotes;
        self.trades += other.trades;
        self.limits += other.limits;
        self.left += other.left;
        self.pauses += other.pauses;
        self.declared += other.declared;
        self.reopenings += other.reopenings;
        self.held += other.held;
        self.most_held = self.most_held.max(other.most_held);
    }
}
