//! Moments: which are still to come, which is the earliest, and what each does.

use crate::stock::{
    lend, Answer, Notice, Stock, Trade, CLOSED, LATE_PAUSE, LIMIT, PAUSED, TRADING, WAITING,
};

/// The marks, in the order in which ties go.
#[derive(Clone, Copy, Debug, PartialEq, Eq, PartialOrd, Ord)]
pub(crate) enum Mark {
    Z,
    W,
    X,
    P,
    C,
    V,
    F,
    H,
}

impl Mark {
    fn byte(self) -> u8 {
        b"zwxpcvfh"[self as usize]
    }
}

/// A moment: its time first, so that moments compare in the order in which they happen.
pub(crate) type Moment = (u32, Mark);

/// Settling to a time does the earliest moment not after it, or answers 14.
pub fn settle(book: &mut [Stock], stock: u32, time: u32) -> Notice {
    let stock = match lend(book, stock) {
        Ok(stock) => stock,
        Err(number) => return none_done(Answer::zeros(number)),
    };
    if !stock.time_in_range(time) {
        return none_done(stock.answer(4));
    }
    match stock.due(time) {
        Some(moment) => {
            stock.happen(moment);
            Notice {
                answer: stock.answer(0),
                mark: moment.1.byte(),
                time: moment.0,
            }
        }
        None => none_done(stock.answer(14)),
    }
}

fn none_done(answer: Answer) -> Notice {
    Notice {
        answer,
        mark: 0,
        time: 0,
    }
}

impl Stock {
    /// All moments still to come, mark and time, in the order in which they would happen.
    pub fn moments(&self) -> Vec<(u8, u32)> {
        let leaving = self.trades.iter().map(|trade| self.leaving(trade.time));
        let mut all: Vec<Moment> = self.single_moments().into_iter().flatten().collect();
        all.extend(leaving.flatten());
        all.sort();
        all.dedup();
        all.into_iter()
            .map(|(time, mark)| (mark.byte(), time))
            .collect()
    }

    /// The earliest moment; trades stand in order, so the first leaves first.
    pub(crate) fn earliest(&self) -> Option<Moment> {
        let first = self.trades.first();
        let leaving = first.and_then(|trade| self.leaving(trade.time));
        let all = self.single_moments().into_iter().flatten().chain(leaving);
        all.min()
    }

    /// The earliest moment not after this time.
    pub(crate) fn due(&self, time: u32) -> Option<Moment> {
        self.earliest().filter(|moment| moment.0 <= time)
    }

    /// A moment still to come whose time is before the clock, the trades being in order.
    pub(crate) fn has_missed_moment(&self) -> bool {
        self.earliest().is_some_and(|moment| moment.0 < self.clock)
    }

    /// The moments still to come but v; in a rubbish record a time stops at the edge of u32.
    fn single_moments(&self) -> [Option<Moment>; 8] {
        let state = self.state;
        let not_closed = state < CLOSED;
        let with_reference = (TRADING..=LATE_PAUSE).contains(&state);
        let moment = |coming: bool, time: u32, mark: Mark| coming.then_some((time, mark));
        let late = self.end.saturating_sub(1_500_000);
        [
            moment(state <= LIMIT, self.end, Mark::Z),
            moment(not_closed && self.early_w_done == 0, 900_000, Mark::W),
            moment(not_closed && self.late_w_done == 0, late, Mark::W),
            moment(state == LIMIT, later(self.limit_entry, 15_000), Mark::X),
            moment(state == PAUSED, later(self.pause_start, 600_000), Mark::P),
            moment(state == LATE_PAUSE, later(self.end, 300_000), Mark::C),
            moment(state == WAITING && self.f_done == 0, 300_000, Mark::F),
            moment(
                with_reference && self.hold_ended == 0,
                later(self.reference_start, 30_000),
                Mark::H,
            ),
        ]
    }

    /// The moment v of a held trade of time u.
    fn leaving(&self, u: u32) -> Option<Moment> {
        (self.state < CLOSED).then_some((later(u, 300_000), Mark::V))
    }

    /// The moment happens at its own time.
    fn happen(&mut self, (time, mark): Moment) {
        self.clock = time;
        match mark {
            Mark::Z | Mark::C => self.close(),
            Mark::W => self.change_factor(),
            Mark::X => self.pause(time),
            Mark::P => self.trade_on(self.reference),
            Mark::V => self.leave_and_test(),
            Mark::F => {
                self.f_done = 1;
                self.trade_on_mean();
            }
            Mark::H => {
                self.hold_ended = 1;
                self.test();
            }
        }
    }

    /// k changes with the clock; in Trading the bands are new, so the quotes are looked at again.
    fn change_factor(&mut self) {
        if self.clock == 900_000 {
            self.early_w_done = 1;
        } else {
            self.late_w_done = 1;
        }
        if self.state == TRADING {
            self.look_at_quotes();
        }
    }

    /// Removes the trades that are 300,000 old, then does the Test.
    fn leave_and_test(&mut self) {
        let leaves = |trade: &&Trade| later(trade.time, 300_000) <= self.clock;
        let count = self.trades.iter().take_while(leaves).count();
        self.trades.drain(..count);
        self.test();
    }
}

fn later(time: u32, by: u32) -> u32 {
    time.saturating_add(by)
}
