//! Plays one day: chooses a stock and a time at an edge; `moves` then chooses the message.

use second::{Stock, CLOSED, LATE_PAUSE, PAUSED};

use crate::chance::Chance;
use crate::plan::Plan;
use crate::tape::{Tape, AFTER_END};

/// What to make happen at a time, so that its moment ties with another.
#[derive(Clone, Copy, Debug, PartialEq, Eq)]
pub(crate) enum Intent {
    /// A trade, which leaves 300,000 later.
    Trade,
    /// A new start of the reference, whose hold ends 30,000 later.
    Start,
    /// An entry into Limit, which lasts 15,000.
    Limit,
    /// A pause, which can be reopened 300,000 later and ends after 600,000.
    Pause,
    /// Any message that tests the state.
    Any,
}

/// Intents that lead to one time, each this long before it, through trades and quotes.
const BY_TRADES: &[(u32, Intent)] = &[
    (300_000, Intent::Trade),
    (60_000, Intent::Any),
    (30_000, Intent::Start),
    (15_000, Intent::Limit),
    (1, Intent::Any),
    (0, Intent::Any),
];
/// Through a pause that ends then, whether Limit leads to it or the primary declares it.
const BY_LIMIT: &[(u32, Intent)] = &[(615_000, Intent::Limit), (1, Intent::Any), (0, Intent::Any)];
const BY_PAUSE: &[(u32, Intent)] = &[(600_000, Intent::Pause), (1, Intent::Any), (0, Intent::Any)];
/// Through a limit state that lasts beyond that time.
const ACROSS: &[(u32, Intent)] = &[(8_000, Intent::Limit), (1, Intent::Any), (0, Intent::Any)];
/// Through a pause that can be reopened from then on.
const BY_REOPENING: &[(u32, Intent)] = &[
    (300_000, Intent::Trade),
    (300_000, Intent::Pause),
    (0, Intent::Any),
];

pub struct Player {
    pub chance: Chance,
    pub tape: Tape,
    pub(crate) plan: Plan,
    /// Each stock's intents still to come, in order of time.
    aims: Vec<Vec<(u32, Intent)>>,
}

impl Player {
    pub fn new(chance: Chance, tape: Tape, plan: Plan) -> Player {
        let aims = vec![Vec::new(); tape.book.len()];
        Player {
            chance,
            tape,
            plan,
            aims,
        }
    }

    /// Plays until the plan's number of messages is reached or all stocks are Closed.
    pub fn play(&mut self) {
        self.set_out();
        while self.tape.messages.len() < self.plan.messages && !self.is_over() {
            let stock = self.chance.below(self.tape.book.len() as u32) as usize;
            if self.stock(stock).state == CLOSED && !self.chance.one_in(10) {
                continue;
            }
            for _ in 0..self.chance.between(1, 4) {
                self.step(stock);
            }
        }
    }

    /// If the plan starts late in the day, makes each stock's first trade near that time, some after openings that come too late.
    fn set_out(&mut self) {
        for stock in 0..self.tape.book.len() {
            if self.plan.start > 0 {
                let time = self.plan.start - self.chance.below(self.plan.spread);
                self.open_too_late(stock, time);
                self.act(stock, time, Intent::Trade);
            }
        }
    }

    /// Whether to end the day; when all stocks are Closed, it goes on for a few more messages.
    fn is_over(&mut self) -> bool {
        let all_closed = self.tape.book.iter().all(|stock| stock.state == CLOSED);
        all_closed && self.chance.one_in(40)
    }

    fn step(&mut self, stock: usize) {
        match self.chance.weighted(&self.plan.weights) {
            0 => self.follow_aim(stock),
            1 => self.at_edge(stock),
            2 => self.near(stock),
            3 => self.wrong(stock),
            4 => self.burst(stock),
            _ => self.lay_in_wait(stock),
        }
    }

    pub(crate) fn stock(&self, stock: usize) -> &Stock {
        &self.tape.book[stock]
    }

    /// Acts a little after the clock, or in the same millisecond.
    pub(crate) fn near(&mut self, stock: usize) {
        let by = match self.chance.below(4) {
            0 => 0,
            1 => 1,
            2 => self.chance.below(2_000),
            _ => self.chance.below(self.plan.pace),
        };
        let time = self.stock(stock).clock + by;
        self.act(stock, time, Intent::Any);
    }

    /// Acts at, just before or just after a time at which something changes.
    fn at_edge(&mut self, stock: usize) {
        let edges = self.edges(stock);
        let Some(edge) = self.soon(stock, &edges, self.plan.leap) else {
            return self.near(stock);
        };
        let time = edge + self.chance.pick(&[0, 1, 1, 1, 2]) - 1;
        self.act(stock, time, Intent::Any);
    }

    /// One of the first of these times after the clock. A time farther away than `leap` is seldom chosen.
    pub(crate) fn soon(&mut self, stock: usize, times: &[u32], leap: u32) -> Option<u32> {
        if times.is_empty() {
            return None;
        }
        let time = times[self.chance.early(times.len())];
        let far = (time - self.stock(stock).clock) / leap;
        (far == 0 || self.chance.one_in(far + 4)).then_some(time)
    }

    /// The times after the clock at which a moment falls due or a check changes, in order.
    fn edges(&self, stock: usize) -> Vec<u32> {
        let stock = self.stock(stock);
        let mut edges: Vec<u32> = stock.moments().iter().map(|moment| moment.1).collect();
        match stock.state {
            PAUSED => edges.push(stock.pause_start + 300_000),
            LATE_PAUSE | CLOSED => edges.extend([stock.end, stock.end + AFTER_END]),
            _ => {}
        }
        edges.retain(|&edge| edge > stock.clock);
        edges.sort_unstable();
        edges.dedup();
        edges
    }

    /// Does the next intent of the stock, or chooses a new time to aim at.
    fn follow_aim(&mut self, stock: usize) {
        if self.aims[stock].is_empty() {
            self.take_aim(stock);
        }
        if self.aims[stock].is_empty() {
            return self.near(stock);
        }
        let (time, intent) = self.aims[stock].remove(0);
        if time >= self.stock(stock).clock {
            self.act(stock, time, intent);
        }
    }

    /// Chooses a time to aim at, and the leads to it for which there is time left.
    fn take_aim(&mut self, stock: usize) {
        let clock = self.stock(stock).clock;
        let end = self.tape.end;
        let mut targets = vec![900_000, end - 1_500_000, end - 600_000, end];
        if !self.chance.one_in(3) {
            targets.extend(self.edges(stock));
        }
        targets.retain(|&target| target > clock);
        targets.sort_unstable();
        targets.dedup();
        let Some(target) = self.soon(stock, &targets, 700_000) else {
            return;
        };
        let ways = [
            BY_TRADES,
            BY_TRADES,
            BY_LIMIT,
            BY_PAUSE,
            BY_REOPENING,
            ACROSS,
        ];
        for &(lead, intent) in self.chance.pick(&ways) {
            if target >= clock + lead && !self.chance.one_in(4) {
                self.aims[stock].push((target - lead, intent));
            }
        }
    }
}
