//! Messages: the table, the checks in their order, and what each message does.

use crate::band::Mean;
use crate::stock::{
    lend, participant_in_range, price_in_range, quote_in_range, Answer, Stock, Trade, HELD_AT_MOST,
    TRADING, WAITING,
};

/// The six kinds of message, in the table's order.
#[derive(Clone, Copy, Debug, PartialEq, Eq)]
pub enum Letter {
    T,
    Q,
    O,
    P,
    R,
    X,
}

impl Letter {
    pub const ALL: [Letter; 6] = [
        Letter::T,
        Letter::Q,
        Letter::O,
        Letter::P,
        Letter::R,
        Letter::X,
    ];

    pub fn byte(self) -> u8 {
        b"TQOPRX"[self as usize]
    }

    pub fn from_byte(byte: u8) -> Option<Letter> {
        Letter::ALL.into_iter().find(|letter| letter.byte() == byte)
    }
}

/// One message; the fields its letter does not use are not looked at.
#[derive(Clone, Copy, Debug, PartialEq, Eq)]
pub struct Message {
    pub letter: Letter,
    pub stock: u32,
    pub time: u32,
    pub participant: u32,
    pub price: u32,
    pub bid: u32,
    pub offer: u32,
}

/// Whether a state takes a message: a row per letter, a column per state.
const TABLE: [[u32; 6]; 6] = [
    [0, 0, 0, 11, 11, 7],
    [0, 0, 0, 0, 0, 7],
    [0, 9, 9, 9, 9, 7],
    [9, 0, 9, 9, 9, 7],
    [9, 9, 9, 0, 9, 7],
    [9, 9, 9, 9, 0, 7],
];

/// Tells the book a message: the first check that applies is given, or the message is done.
pub fn tell(book: &mut [Stock], m: &Message) -> Answer {
    let stock = match lend(book, m.stock) {
        Ok(stock) => stock,
        Err(number) => return Answer::zeros(number),
    };
    let number = stock.refusal(m);
    if number == 0 {
        stock.take(m);
    }
    stock.answer(number)
}

impl Stock {
    /// The checks from 4 down, in the order of the table of numbers; 0 when none applies.
    fn refusal(&self, m: &Message) -> u32 {
        if !self.message_in_range(m) {
            return 4;
        }
        if m.time < self.clock {
            return 5;
        }
        if self.due(m.time).is_some() {
            return 6;
        }
        if names_primary(m.letter) && m.participant != self.setup.primary {
            return 8;
        }
        let entry = TABLE[m.letter as usize][self.state as usize];
        if entry != 0 {
            return entry;
        }
        if m.letter == Letter::O && m.time >= 300_000 {
            return 15;
        }
        if m.letter == Letter::P && !self.is_straddle() {
            return 16;
        }
        if self.is_too_early(m) {
            return 10;
        }
        if m.letter == Letter::T && self.is_outside_bands(m.price) {
            return 12;
        }
        if m.letter == Letter::T && self.trades.len() >= HELD_AT_MOST {
            return 13;
        }
        0
    }

    /// The fields that the letter uses are in range, X's price too though X does not use it.
    fn message_in_range(&self, m: &Message) -> bool {
        let participant = participant_in_range(m.participant);
        self.time_in_range(m.time)
            && match m.letter {
                Letter::T => price_in_range(m.price),
                Letter::Q => participant && quote_in_range(m.bid) && quote_in_range(m.offer),
                Letter::P => participant,
                Letter::O | Letter::R | Letter::X => participant && price_in_range(m.price),
            }
    }

    /// An R in the first 300,000 of a pause, an X earlier than E.
    fn is_too_early(&self, m: &Message) -> bool {
        match m.letter {
            Letter::R => m.time < self.pause_start + 300_000,
            Letter::X => m.time < self.end,
            _ => false,
        }
    }

    /// A price outside the bands in force; without bands no price is.
    fn is_outside_bands(&self, price: u32) -> bool {
        self.bands()
            .is_some_and(|(lower, upper)| price < lower || price > upper)
    }

    /// Does a message that no check refused.
    fn take(&mut self, m: &Message) {
        self.clock = m.time;
        match m.letter {
            Letter::T => self.take_trade(m.price),
            Letter::Q => self.take_quote(m),
            Letter::O | Letter::R => self.open(m.price),
            Letter::P => self.pause(m.time),
            Letter::X => self.close(),
        }
    }

    /// T joins the window; Waiting at 300,000 or later takes the mean, Trading does the Test.
    fn take_trade(&mut self, price: u32) {
        let time = self.clock;
        self.trades.push(Trade { time, price });
        match self.state {
            WAITING if time >= 300_000 => self.trade_on_mean(),
            TRADING => self.test(),
            _ => {}
        }
    }

    /// Q replaces a participant's bid and offer; the rules of the state follow.
    fn take_quote(&mut self, m: &Message) {
        let participant = m.participant as usize;
        self.bids[participant] = m.bid;
        self.offers[participant] = m.offer;
        self.look_at_quotes();
    }

    /// O and R: the window becomes this price alone, and it is the reference from now.
    fn open(&mut self, price: u32) {
        let time = self.clock;
        self.trades.clear();
        self.trades.push(Trade { time, price });
        self.trade_on(Mean::of_price(price));
    }
}

/// Only the stock's primary may send O, P, R and X.
fn names_primary(letter: Letter) -> bool {
    !matches!(letter, Letter::T | Letter::Q)
}
