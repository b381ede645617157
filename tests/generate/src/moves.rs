//! The moves of a player: messages that cause an event, or that test the rules of a state.

use second::{Letter, Message, CLOSED, LATE_PAUSE, LIMIT, PARTICIPANTS, PAUSED, TRADING, WAITING};

use crate::player::{Intent, Player};
use crate::prices::{self, HIGHEST};
use crate::tape::AFTER_END;

impl Player {
    /// Makes the intent happen at this time, or else sends a message that tests the state.
    pub(crate) fn act(&mut self, stock: usize, time: u32, intent: Intent) {
        self.tape.settle(stock, time);
        let state = self.stock(stock).state;
        match (intent, state) {
            (Intent::Limit, TRADING) => self.enter_limit(stock, time),
            (Intent::Pause, TRADING) => self.pause(stock, time),
            (Intent::Start, LIMIT) => self.leave_limit(stock, time),
            (Intent::Start, TRADING) => {
                let price = prices::far(&mut self.chance, &self.tape.book[stock], time);
                self.trade(stock, time, price);
            }
            (Intent::Trade, WAITING..=LIMIT) => self.trade_within(stock, time),
            _ => self.any(stock, time),
        }
    }

    /// Sends a message that tests the state: mostly one that the state takes, at a price on an edge.
    fn any(&mut self, stock: usize, time: u32) {
        let state = self.stock(stock).state;
        // The weights are in the order of the letters T, Q, O, P, R, X.
        let weights = match state {
            WAITING if time < 300_000 => [6, 4, 2, 0, 0, 0],
            WAITING => [5, 4, 1, 0, 0, 0],
            TRADING => [6, 7, 0, 2, 0, 0],
            LIMIT => [4, 7, 0, 1, 0, 0],
            PAUSED if time < self.stock(stock).pause_start + 300_000 => [1, 6, 0, 0, 1, 0],
            PAUSED => [1, 2, 0, 0, 5, 0],
            LATE_PAUSE if time < self.tape.end => [1, 6, 0, 0, 1, 1],
            LATE_PAUSE => [1, 2, 0, 0, 1, 4],
            _ => [1, 1, 1, 1, 1, 1],
        };
        let letter = match self.chance.below(12) {
            0 => self.chance.pick(&Letter::ALL),
            _ => Letter::ALL[self.chance.weighted(&weights)],
        };
        match letter {
            Letter::Q if state == LIMIT && self.chance.one_in(2) => self.leave_limit(stock, time),
            Letter::Q if state == TRADING && self.chance.one_in(4) => self.enter_limit(stock, time),
            _ => self.message(stock, time, letter),
        }
    }

    /// A message of this letter, mostly within all ranges and by the primary.
    fn message(&mut self, stock: usize, time: u32, letter: Letter) {
        let mut m = self.blank(stock, time, letter);
        let kept = &self.tape.book[stock];
        match letter {
            Letter::T => m.price = prices::trade(&mut self.chance, kept, time),
            Letter::Q => {
                m.participant = self.chance.below(self.plan.crowd);
                (m.bid, m.offer) = prices::quote(&mut self.chance, kept);
            }
            _ => {
                m.participant = kept.setup.primary;
                m.price = self.opening(stock);
            }
        }
        if self.chance.one_in(30) && letter != Letter::Q {
            m.participant = self.chance.below(PARTICIPANTS as u32);
        }
        self.tape.send(m);
    }

    /// Openings in Waiting that come too late: at 300,000, just after it, and just before a first trade of this time. They come on top of
    /// the plan's messages, with a copy of the random numbers, so that the rest of the day does not depend on them.
    pub(crate) fn open_too_late(&mut self, stock: usize, first: u32) {
        let (chance, sent) = (self.chance.clone(), self.tape.messages.len());
        for time in [300_000, 300_001, first - 1] {
            if (300_000..first).contains(&time) && self.chance.one_in(3) {
                self.message(stock, time, Letter::O);
            }
        }
        self.plan.messages += self.tape.messages.len() - sent;
        self.chance = chance;
    }

    /// An opening price: near the last reference, or far from it.
    fn opening(&mut self, stock: usize) -> u32 {
        let kept = &self.tape.book[stock];
        let (reference, close) = (kept.reference.rounded(), kept.setup.close);
        if reference > 0 && !self.chance.one_in(3) {
            let share = (reference / 10).max(1);
            let price = reference - share / 2 + self.chance.below(share);
            return prices::whole_cents(&mut self.chance, price.clamp(1, HIGHEST));
        }
        prices::first_reference(&mut self.chance, close)
    }

    fn blank(&self, stock: usize, time: u32, letter: Letter) -> Message {
        Message {
            letter,
            stock: stock as u32,
            time,
            participant: 0,
            price: 1,
            bid: 0,
            offer: 0,
        }
    }

    fn trade(&mut self, stock: usize, time: u32, price: u32) {
        let m = self.blank(stock, time, Letter::T);
        self.tape.send(Message { price, ..m });
    }

    /// A trade within the bands in force.
    fn trade_within(&mut self, stock: usize, time: u32) {
        let now = prices::view(self.stock(stock));
        let price = if now.upper == 0 {
            prices::trade(&mut self.chance, &self.tape.book[stock], time)
        } else {
            prices::within(&mut self.chance, &now)
        };
        self.trade(stock, time, price);
    }

    fn quote(&mut self, stock: usize, time: u32, participant: u32, bid: u32, offer: u32) {
        let m = self.blank(stock, time, Letter::Q);
        self.tape.send(Message {
            participant,
            bid,
            offer,
            ..m
        });
    }

    /// Removes the quotes that would cross a bid or an offer at this price, and then quotes it.
    fn enter_limit(&mut self, stock: usize, time: u32) {
        let now = prices::view(self.stock(stock));
        let by_bid = now.lower == 0 || (self.chance.one_in(2) && now.upper <= HIGHEST);
        for participant in 0..PARTICIPANTS {
            let kept = self.stock(stock);
            let (bid, offer) = (kept.bids[participant], kept.offers[participant]);
            let crosses = if by_bid {
                (now.lower.max(1)..now.upper).contains(&offer)
            } else {
                bid > now.lower && bid <= now.upper
            };
            if crosses && !self.chance.one_in(12) {
                self.quote(stock, time, participant as u32, 0, 0);
            }
        }
        let participant = self.chance.below(self.plan.crowd);
        if by_bid {
            self.quote(stock, time, participant, now.upper.min(HIGHEST), 0);
        } else {
            self.quote(stock, time, participant, 0, now.lower);
        }
    }

    /// Replaces every limit quote, so that Limit ends; sometimes it begins again at once.
    fn leave_limit(&mut self, stock: usize, time: u32) {
        let limits = self.limit_quotes(stock);
        self.aim_at_half_cent(stock, time);
        if self.chance.one_in(3) {
            self.wait_for_leaving(stock, time, &limits);
        }
        for participant in limits {
            let now = prices::view(self.stock(stock));
            let inside = prices::within(&mut self.chance, &now);
            let offer = self.chance.pick(&[0, inside, now.upper.min(HIGHEST)]);
            self.quote(stock, time, participant, 0, offer);
        }
    }

    /// One time in three, a trade after which the bands that follow Limit are next to half a cent. It comes on top of the plan's messages.
    fn aim_at_half_cent(&mut self, stock: usize, time: u32) {
        let mut aside = self.chance.aside();
        if aside.one_in(3) {
            let kept = self.stock(stock);
            let reference = kept.reference.rounded();
            let price = prices::about_at_half_cent(&mut aside, kept, time, reference);
            self.trade(stock, time, price);
            self.plan.messages += 1;
        }
    }

    /// The participants whose bid is at the upper band in force, or whose offer is at the lower.
    fn limit_quotes(&self, stock: usize) -> Vec<u32> {
        let kept = self.stock(stock);
        let now = prices::view(kept);
        let at_band = |p: usize| kept.bids[p] == now.upper || kept.offers[p] == now.lower.max(1);
        let all = 0..PARTICIPANTS;
        all.filter(|&p| at_band(p)).map(|p| p as u32).collect()
    }

    /// Quotes at the bands that would follow if Limit ended now, where such quotes are not at a limit yet.
    fn wait_for_leaving(&mut self, stock: usize, time: u32, limits: &[u32]) {
        let blank = self.blank(stock, time, Letter::Q);
        let clear = |&participant: &u32| Message {
            participant,
            ..blank
        };
        let leaving: Vec<Message> = limits.iter().map(clear).collect();
        let then = self.tape.foresee(stock, time, &leaving);
        let free = (0..self.plan.crowd).find(|p| !limits.contains(p));
        if let (Some(participant), TRADING) = (free, then.state) {
            self.quote_at(stock, time, participant, then.lower, then.upper);
        }
    }

    /// A bid at this upper band or an offer at this lower band, if a quote can have that price.
    fn quote_at(&mut self, stock: usize, time: u32, participant: u32, lower: u32, upper: u32) {
        if upper <= HIGHEST && (lower == 0 || self.chance.one_in(2)) {
            self.quote(stock, time, participant, upper, 0);
        } else {
            self.quote(stock, time, participant, 0, lower);
        }
    }

    /// Quotes at the bands that a later moment will bring, so that Limit begins then.
    pub(crate) fn lay_in_wait(&mut self, stock: usize) {
        let moments = self.stock(stock).moments();
        let time = self.stock(stock).clock;
        if self.stock(stock).state == CLOSED || moments.is_empty() {
            return self.near(stock);
        }
        let times: Vec<u32> = moments.iter().map(|moment| moment.1).collect();
        let Some(moment) = self.soon(stock, &times, self.plan.leap) else {
            return self.near(stock);
        };
        let then = self.tape.foresee(stock, moment, &[]);
        if then.state != TRADING {
            return self.near(stock);
        }
        let participant = self.chance.below(self.plan.crowd);
        self.quote_at(stock, time, participant, then.lower, then.upper);
        let time = moment + self.chance.pick(&[0, 0, 1, 15_000, 30_000]);
        self.act(stock, time, Intent::Any);
    }

    /// Makes a straddle, so that the primary's pause is accepted.
    fn pause(&mut self, stock: usize, time: u32) {
        let now = prices::view(self.stock(stock));
        if now.bid_flag != 2 && now.offer_flag != 2 {
            self.make_straddle(stock, time);
        }
        self.message(stock, time, Letter::P);
    }

    /// Removes all offers and offers above the upper band, or removes all bids and bids below the lower band.
    fn make_straddle(&mut self, stock: usize, time: u32) {
        let now = prices::view(self.stock(stock));
        let by_bid = now.upper >= HIGHEST;
        for participant in 0..PARTICIPANTS {
            let kept = self.stock(stock);
            let side = if by_bid { &kept.bids } else { &kept.offers };
            if side[participant] != 0 {
                self.quote(stock, time, participant as u32, 0, 0);
            }
        }
        let participant = self.chance.below(self.plan.crowd);
        if by_bid {
            let bid = now.lower.saturating_sub(1);
            self.quote(stock, time, participant, bid, 0);
        } else {
            self.quote(stock, time, participant, 0, now.upper + 1);
        }
    }

    /// Many trades within one or a few milliseconds, sometimes until the window is full.
    pub(crate) fn burst(&mut self, stock: usize) {
        let state = self.stock(stock).state;
        if state > LIMIT {
            return self.near(stock);
        }
        let many = match self.chance.below(self.plan.few_bursts) {
            0 => 515,
            _ => self.chance.between(3, 12),
        };
        let step = self.chance.pick(&[0, 0, 1, 1, 7]);
        for _ in 0..many {
            let time = self.stock(stock).clock + step;
            self.act(stock, time, Intent::Trade);
        }
    }

    /// A message that is refused, or whose field has its last valid value.
    pub(crate) fn wrong(&mut self, stock: usize) {
        let clock = self.stock(stock).clock;
        let letter = self.chance.pick(&Letter::ALL);
        let mut m = self.blank(stock, clock, letter);
        m.participant = self.stock(stock).setup.primary;
        m.price = self.opening(stock);
        (m.bid, m.offer) = prices::quote(&mut self.chance, &self.tape.book[stock]);
        for _ in 0..self.chance.between(1, 2) {
            self.spoil(&mut m);
        }
        self.tape.send(m);
    }

    /// Puts one field of a message out of range, or gives it a wrong value.
    fn spoil(&mut self, m: &mut Message) {
        match self.chance.below(9) {
            0 => m.stock = self.chance.pick(&[self.tape.book.len() as u32, u32::MAX]),
            1 => m.time = self.tape.end + AFTER_END + self.chance.between(1, 2),
            2 => m.time = m.time.saturating_sub(self.chance.between(1, 2)),
            3 => m.price = self.chance.pick(&[0, HIGHEST + 1, u32::MAX]),
            4 => m.participant = self.chance.pick(&[16, 17, u32::MAX]),
            5 => m.participant = (m.participant % 16 + 1) % 16,
            6 => m.bid = self.chance.pick(&[HIGHEST, HIGHEST + 1, u32::MAX]),
            7 => m.offer = self.chance.pick(&[HIGHEST, HIGHEST + 1, u32::MAX]),
            _ => {}
        }
    }
}
