//! Generates a book's messages: 64 stocks, their prices, storms in one of them, and what the primaries do.
//!
//! The session is the shortest possible, an hour, so that trades are close together and windows hold many.

use std::collections::BTreeSet;

use generate::chance::Chance;
use second::{Letter, Message, Setup, LATE_PAUSE, LIMIT, PARTICIPANTS, PAUSED, TRADING, WAITING};
use sumpheron::{raw, MOST_STOCKS};

use crate::feed::Feed;
use crate::storm::{self, Storm};

pub const END: u32 = 3_600_000;
const HIGHEST: u32 = 999_999_999;
/// The session's first and last BUSY milliseconds have more messages.
const BUSY: u32 = 120_000;
/// Microseconds from one of a book's messages to the next, on average.
const IN_STORM: u32 = 5_000;
const IN_BUSY_TIME: u32 = 10_000;
const ELSE: u32 = 100_000;
/// One message in this many is a trade, while a stock may trade and while it may not: about twenty quotes to a trade.
const TO_A_TRADE: u32 = 19;
const TO_A_TRADE_IN_PAUSES: u32 = 500;

struct Name {
    setup: Setup,
    /// The price around which it is quoted and traded.
    price: u32,
    /// Whether its pause was handled already.
    attended: bool,
}

pub struct Source {
    chance: Chance,
    names: Vec<Name>,
    /// The stocks, each repeated in proportion to its share of the messages.
    shares: Vec<u8>,
    storms: Vec<Storm>,
    /// When a primary acts, and on which stock.
    errands: BTreeSet<(u32, u32)>,
    /// When the next message comes, in microseconds.
    next: u64,
}

impl Source {
    /// The source of the book of this number.
    pub fn new(book: u64) -> Source {
        let mut chance = Chance::new(book);
        let names: Vec<Name> = (0..MOST_STOCKS).map(|_| name(&mut chance)).collect();
        let errands = openings(&mut chance);
        Source {
            storms: storm::all(&mut chance, END),
            shares: shares(),
            names,
            errands,
            next: 0,
            chance,
        }
    }

    pub fn setups(&self) -> Vec<Setup> {
        self.names.iter().map(|name| name.setup).collect()
    }

    /// When the next message is sent, if there is one.
    pub fn due(&self) -> Option<u32> {
        let message = (self.next / 1_000) as u32;
        let message = (message < END).then_some(message);
        let errand = self.errands.first().map(|errand| errand.0);
        message.into_iter().chain(errand).min()
    }

    /// Sends what is due at this time; an errand comes before a message.
    pub fn send(&mut self, time: u32, feed: &mut Feed) {
        match self.errands.first() {
            Some(&errand) if errand.0 == time => {
                self.errands.remove(&errand);
                self.run_errand(errand.1, time, feed);
            }
            _ => {
                self.send_message(time, feed);
                let gap = self.gap(time);
                self.next += u64::from(self.chance.below(2 * gap));
            }
        }
    }

    /// Microseconds to the next message, on average.
    fn gap(&self, time: u32) -> u32 {
        match self.storm(time) {
            Some(_) => IN_STORM,
            None if (BUSY..END - BUSY).contains(&time) => ELSE,
            None => IN_BUSY_TIME,
        }
    }

    /// The storm at this time, if there is one.
    fn storm(&self, time: u32) -> Option<&Storm> {
        self.storms.iter().find(|storm| storm.blows(time))
    }

    /// The storm about this stock, if there is one.
    fn storm_about(&self, stock: u32, time: u32) -> Option<&Storm> {
        self.storm(time).filter(|storm| storm.stock == stock)
    }

    /// Picks a stock by its share; in a storm three of four messages are for one stock.
    fn pick(&mut self, time: u32) -> u32 {
        let stormy = self.storm(time).map(|storm| storm.stock);
        match stormy {
            Some(stock) if !self.chance.one_in(4) => stock,
            _ => self.chance.pick(&self.shares).into(),
        }
    }

    /// The primary opens, closes or reopens the stock, depending on its state.
    fn run_errand(&mut self, stock: u32, time: u32, feed: &mut Feed) {
        let letter = match feed.settle(stock, time).state {
            WAITING => Letter::O,
            LATE_PAUSE => Letter::X,
            _ => Letter::R,
        };
        feed.tell(self.by_primary(letter, stock, time));
    }

    fn send_message(&mut self, time: u32, feed: &mut Feed) {
        let stock = self.pick(time);
        let late = if self.chance.one_in(2_000) { 50 } else { 0 };
        let time = time.saturating_sub(late);
        let now = feed.settle(stock, time);
        self.attend(stock, time, &now, feed);
        self.walk(stock, time, &now);
        let message = self.message(stock, time, &now);
        feed.tell(message);
    }

    /// Plans what the primary does about a new pause; one in eight is left to end by itself.
    fn attend(&mut self, stock: u32, time: u32, now: &raw::Answer, feed: &Feed) {
        let paused = now.state == PAUSED || now.state == LATE_PAUSE;
        let name = &mut self.names[stock as usize];
        if paused && !name.attended {
            let earliest = match now.state {
                PAUSED => feed.record(stock).pause_start + 300_000,
                _ => END,
            };
            if !self.chance.one_in(8) {
                let errand = earliest + self.chance.below(60_000);
                self.errands.insert((errand.max(time), stock));
            }
        }
        name.attended = paused;
    }

    /// Moves the stock's price: a little either way, or in a storm to a band and past it, and then back to the reference.
    fn walk(&mut self, stock: u32, time: u32, now: &raw::Answer) {
        let step = self.names[stock as usize].price / 4_000;
        let goal = match self.storm_about(stock, time) {
            Some(storm) if now.upper != 0 => storm.goal(time, now),
            _ => None,
        };
        let either_way = self.chance.below(step + 1) + self.chance.below(step + 1);
        let price = &mut self.names[stock as usize].price;
        *price = match goal {
            Some(goal) if goal > *price => goal.min(*price + step + 1),
            Some(goal) => goal.max(*price - step),
            None => (*price + either_way - step).clamp(1_000, HIGHEST / 2),
        };
    }

    fn message(&mut self, stock: u32, time: u32, now: &raw::Answer) -> Message {
        let straddle = now.bid_flag == 2 || now.offer_flag == 2;
        let odds = match now.state {
            PAUSED | LATE_PAUSE => TO_A_TRADE_IN_PAUSES,
            _ => TO_A_TRADE,
        };
        if now.state == TRADING && straddle && self.chance.one_in(30) {
            self.by_primary(Letter::P, stock, time)
        } else if self.chance.one_in(odds) {
            self.trade(stock, time, now)
        } else {
            self.quote(stock, time, now)
        }
    }

    fn by_primary(&self, letter: Letter, stock: u32, time: u32) -> Message {
        let name = &self.names[stock as usize];
        Message {
            letter,
            stock,
            time,
            participant: name.setup.primary,
            price: name.price,
            bid: 0,
            offer: 0,
        }
    }

    /// A trade within the bands; one in forty is far above them.
    fn trade(&mut self, stock: u32, time: u32, now: &raw::Answer) -> Message {
        let message = self.by_primary(Letter::T, stock, time);
        let price = match within(now) {
            Some((lower, upper)) if self.chance.one_in(40) => upper.saturating_add(lower),
            Some((lower, upper)) => message.price.clamp(lower, upper),
            None => message.price,
        };
        Message {
            price: price.min(HIGHEST),
            ..message
        }
    }

    /// A quote around the stock's price. The bid stays at or below the upper band, and the offer at or above the lower.
    fn quote(&mut self, stock: u32, time: u32, now: &raw::Answer) -> Message {
        let price = self.names[stock as usize].price;
        let tick = (price / 2_000).max(1);
        let mut bid = price - tick * self.chance.between(1, 8);
        let mut offer = price + tick * self.chance.between(1, 8);
        if let Some((lower, upper)) = within(now) {
            let storm = self.storm_about(stock, time);
            let wide = storm.is_some_and(|storm| storm.widens(time));
            bid = if wide { lower - 1 } else { bid.min(upper) };
            offer = offer.max(lower);
        }
        Message {
            participant: self.chance.below(PARTICIPANTS as u32),
            bid,
            offer,
            ..self.by_primary(Letter::Q, stock, time)
        }
    }
}

/// The lowest and the highest price that may trade, if bands are in force.
fn within(now: &raw::Answer) -> Option<(u32, u32)> {
    let price = |band: u32| band.clamp(1, HIGHEST);
    matches!(now.state, TRADING | LIMIT).then(|| (price(now.lower), price(now.upper)))
}

fn name(chance: &mut Chance) -> Name {
    let tier = chance.between(1, 2);
    let leverage = chance.pick(if tier == 1 { &[1] } else { &[1, 1, 1, 2, 3] });
    let close = match chance.below(10) {
        0 => chance.between(5_000, 30_000),
        _ => chance.between(30_001, 2_000_000),
    };
    Name {
        setup: Setup {
            tier,
            leverage,
            primary: chance.below(PARTICIPANTS as u32),
            close,
        },
        price: close,
        attended: false,
    }
}

/// The first stock gets four of ten messages, and the n-th stock the first one's share divided by n times the square root of n.
fn shares() -> Vec<u8> {
    let share = |stock: u8| {
        let n = f64::from(stock) + 1.0;
        vec![stock; (4_096.0 / (n * n.sqrt())) as usize]
    };
    (0..MOST_STOCKS as u8).flat_map(share).collect()
}

/// The primaries open most stocks within the first minute; the others wait for their first reference.
fn openings(chance: &mut Chance) -> BTreeSet<(u32, u32)> {
    let mut errands = BTreeSet::new();
    for stock in 0..MOST_STOCKS as u32 {
        if !chance.one_in(16) {
            errands.insert((chance.below(60_000), stock));
        }
    }
    errands
}
