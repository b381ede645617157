//! Plays sensible calls on a book, aimed at states and times at which the rules change.

use bytes::field::*;
use bytes::{Call, Given, PLACES};
use second::{Answer, Letter, Message, CLOSED, TRADING, WAITING};

use crate::book::Book;
use crate::exact::{read_without_trades, reference, set_reference};
use crate::prices::{self, Sight};
use crate::{setups, times, Run};

const BOOKS: usize = 2_060;

/// The messages to choose from in each state.
const LETTERS: [&[u8]; 6] = [
    b"TTTTTTQQQOOOPRX",
    b"TTTTTTTQQQQQQPPORX",
    b"TTTTQQQQQQOPRX",
    b"RRRRRQQQTOPX",
    b"XXXXQQQTOPR",
    b"TQOPRX",
];

/// Settling stops after this many moments.
const MOMENTS_AT_MOST: usize = 2_000;

/// Plays many books from their setups on.
pub fn all(run: &mut Run) {
    for _ in 0..BOOKS {
        let stocks = match run.chance.below(60) {
            0 => 64,
            1 => run.chance.between(4, 63),
            2..=14 => run.chance.between(2, 3),
            _ => 1,
        };
        one_book(run, stocks as usize);
    }
}

fn one_book(run: &mut Run, stocks: usize) {
    let end = setups::end(&mut run.chance);
    let setups = setups::list(&mut run.chance, stocks);
    let mut book = Book::new(stocks);
    book.play(&mut run.tally, &Call::Setup { end, setups });
    let played = [run.chance.place(stocks), stocks - 1, 0];
    let steps = run.chance.between(20, 800);
    let mut player = Player::new(&mut book, run);
    for _ in 0..steps {
        let stock = player.run.chance.pick(&played);
        if player.last[stock].state == CLOSED && !player.run.chance.one_in(10) {
            continue;
        }
        player.step(stock);
        if player.run.chance.one_in(8) {
            let snapshot = player.book.take(stock);
            player.run.pool.offer(&mut player.run.chance, snapshot);
        }
    }
}

pub struct Player<'a> {
    pub book: &'a mut Book,
    pub run: &'a mut Run,
    /// The last answer about each stock.
    last: Vec<Answer>,
}

impl<'a> Player<'a> {
    /// A player who has read each stock.
    pub fn new(book: &'a mut Book, run: &'a mut Run) -> Player<'a> {
        let mut player = Player {
            last: vec![Answer::default(); book.stocks],
            book,
            run,
        };
        for stock in 0..player.book.stocks {
            player.read(stock);
        }
        player
    }

    fn play(&mut self, stock: usize, call: &Call) -> Given {
        let given = self.book.play(&mut self.run.tally, call);
        if !matches!(given.answer.number, 1..=3) {
            self.last[stock] = given.answer;
        }
        given
    }

    pub fn read(&mut self, stock: usize) {
        let call = Call::Read {
            stock: stock as u32,
        };
        self.play(stock, &call);
    }

    /// Asks for the next moment. The result has no stock's values, so the last answer is kept.
    pub fn next(&mut self, stock: usize) {
        let call = Call::Next {
            stock: stock as u32,
        };
        self.book.play(&mut self.run.tally, &call);
    }

    /// Asks for the totals. The result has no stock's values, so the last answer is kept.
    pub fn totals(&mut self, stock: usize) {
        let call = Call::Totals {
            stock: stock as u32,
        };
        self.book.play(&mut self.run.tally, &call);
    }

    pub fn settle_once(&mut self, stock: usize, time: u32) -> Given {
        let call = Call::Settle {
            stock: stock as u32,
            time,
        };
        self.play(stock, &call)
    }

    /// Settles every moment that is due.
    pub fn settle_all(&mut self, stock: usize, time: u32) {
        for _ in 0..MOMENTS_AT_MOST {
            if self.settle_once(stock, time).answer.number != 0 {
                return;
            }
        }
    }

    /// Mostly settles all, sometimes one moment or none.
    fn settle(&mut self, stock: usize, time: u32) {
        self.next(stock);
        match self.run.chance.below(24) {
            0 => {}
            1 => {
                self.settle_once(stock, time);
            }
            2 => {
                self.settle_all(stock, time);
                self.settle_once(stock, time);
            }
            _ => self.settle_all(stock, time),
        }
    }

    /// Makes a few calls on the stock, for one event.
    pub fn step(&mut self, stock: usize) {
        match self.run.chance.below(1_300) {
            0 => self.burst(stock),
            1..=60 => self.read(stock),
            61..=90 => self.pause_late(stock),
            91..=150 => self.force_limit(stock),
            151..=190 => self.force_pause(stock),
            191..=250 => self.open_late(stock),
            251..=310 => self.totals(stock),
            311..=350 => self.open_limited(stock),
            _ => self.message(stock),
        }
    }

    /// Settles and tells one message.
    fn message(&mut self, stock: usize) {
        let time = self.time(stock);
        self.settle(stock, time);
        let letters = LETTERS[self.last[stock].state as usize];
        let letter = Letter::from_byte(self.run.chance.pick(letters)).unwrap_or(Letter::Q);
        self.tell(stock, letter, time);
    }

    pub fn time(&mut self, stock: usize) -> u32 {
        let record = self.book.record(stock);
        let oldest = (wide(record, COUNT) > 0).then(|| self.book.places(stock).0[0]);
        times::pick(&mut self.run.chance, record, oldest)
    }

    /// Tells a message of this letter with arguments that mostly fit the stock.
    pub fn tell(&mut self, stock: usize, letter: Letter, time: u32) -> Given {
        let mut sight = self.sight(stock);
        if letter == Letter::Q && self.run.chance.one_in(4) {
            sight.answer = self.foresee(stock, &sight);
        }
        let chance = &mut self.run.chance;
        let wrong = chance.pick(&[16, u32::MAX]);
        let other = chance.below(16);
        let participant = match (letter, chance.below(16)) {
            (_, 0) if chance.one_in(4) => wrong,
            (_, 0) => other,
            (Letter::Q, _) => other % 3,
            _ => self.book.record(stock)[PRIMARY],
        };
        let message = Message {
            letter,
            stock: stock as u32,
            time,
            participant,
            price: prices::price(chance, &sight),
            bid: prices::side(chance, &sight),
            offer: prices::side(chance, &sight),
        };
        self.play(stock, &Call::Tell(message))
    }

    fn sight(&self, stock: usize) -> Sight {
        let record = self.book.record(stock);
        let count = wide(record, COUNT).min(PLACES as u64);
        let held = &self.book.places(stock).1[..count as usize];
        Sight {
            answer: self.last[stock],
            close: record[CLOSE],
            reference: reference(record),
            count,
            sum: held.iter().map(|&price| u64::from(price)).sum(),
            extremes: [record[HIGHEST_TRADE], record[LOWEST_TRADE]],
        }
    }

    /// What the stock would answer if the window's mean were the reference from now on.
    fn foresee(&self, stock: usize, sight: &Sight) -> Answer {
        match sight.count {
            0 => self.foresee_with(stock, sight.reference),
            count => self.foresee_with(stock, (sight.sum, count)),
        }
    }

    /// What the stock would answer in Trading with this reference.
    fn foresee_with(&self, stock: usize, reference: (u64, u64)) -> Answer {
        let mut record = *self.book.record(stock);
        record[STATE] = TRADING;
        record[HOLD] = 0;
        set_reference(&mut record, reference);
        read_without_trades(record)
    }

    fn quote(&mut self, stock: usize, time: u32, participant: u32, sides: (u32, u32)) {
        let message = Message {
            letter: Letter::Q,
            stock: stock as u32,
            time,
            participant,
            price: 0,
            bid: sides.0,
            offer: sides.1,
        };
        self.play(stock, &Call::Tell(message));
    }

    /// Tells a message from the primary, or a trade.
    fn price(&mut self, stock: usize, letter: Letter, time: u32, price: u32) -> Given {
        let message = Message {
            letter,
            stock: stock as u32,
            time,
            participant: self.book.record(stock)[PRIMARY],
            price,
            bid: 0,
            offer: 0,
        };
        self.play(stock, &Call::Tell(message))
    }

    /// Takes away every quote.
    fn clear(&mut self, stock: usize, time: u32) {
        for participant in 0..16 {
            let record = self.book.record(stock);
            let place = participant as usize;
            if record[BIDS + place] != 0 || record[OFFERS + place] != 0 {
                self.quote(stock, time, participant, (0, 0));
            }
        }
    }

    fn force_limit(&mut self, stock: usize) {
        let time = self.time(stock);
        self.limit_at(stock, time);
    }

    /// Enters Limit at this time where the stock is in Trading.
    fn limit_at(&mut self, stock: usize, time: u32) {
        self.settle_all(stock, time);
        self.clear(stock, time);
        let Answer { lower, upper, .. } = self.last[stock];
        let sides = [(upper, 0), (0, lower), (upper, upper), (lower, lower)];
        let sides = self.run.chance.pick(&sides);
        let participant = self.run.chance.below(16);
        self.quote(stock, time, participant, sides);
        if self.run.chance.one_in(2) {
            self.limit_afresh(stock, time, participant);
        }
    }

    /// Ends Limit, now or a little later, by a quote at a band that then follows, so that Limit begins afresh where the bands differ.
    fn limit_afresh(&mut self, stock: usize, time: u32, participant: u32) {
        let later = time.saturating_add(self.run.chance.below(15_000));
        let time = self.run.chance.pick(&[time, later]);
        self.settle_all(stock, time);
        let Answer { lower, upper, .. } = self.foresee(stock, &self.sight(stock));
        let sides = self.run.chance.pick(&[(upper, 0), (0, lower)]);
        self.quote(stock, time, participant, sides);
    }

    fn force_pause(&mut self, stock: usize) {
        let time = self.time(stock);
        self.straddle_at(stock, time);
    }

    /// Declares a pause at this time where the stock is in Trading; sometimes first with a quote at a band, which is no straddle.
    fn straddle_at(&mut self, stock: usize, time: u32) {
        self.settle_all(stock, time);
        self.clear(stock, time);
        let Answer { lower, upper, .. } = self.last[stock];
        if self.run.chance.one_in(4) {
            let sides = self.run.chance.pick(&[(lower, 0), (0, upper)]);
            self.quote(stock, time, 3, sides);
            self.tell(stock, Letter::P, time);
        }
        let sides = [(lower.saturating_sub(1), 0), (0, upper + 1)];
        let sides = self.run.chance.pick(&sides);
        self.quote(stock, time, 3, sides);
        self.tell(stock, Letter::P, time);
    }

    /// Starts a pause that is just late or just not late.
    fn pause_late(&mut self, stock: usize) {
        let by_limit = self.run.chance.one_in(2);
        let end = self.book.record(stock)[END];
        let time = times::late_start(&mut self.run.chance, end, by_limit);
        if time < self.book.record(stock)[CLOCK] {
            return self.message(stock);
        }
        self.settle_all(stock, time);
        self.tell(stock, Letter::T, time);
        if by_limit {
            self.limit_at(stock, time);
        } else {
            self.straddle_at(stock, time);
        }
    }

    /// Opens a stock that waits just too late or just in time.
    fn open_late(&mut self, stock: usize) {
        let time = self.run.chance.about(300_000);
        if self.last[stock].state != WAITING || time < self.book.record(stock)[CLOCK] {
            return self.message(stock);
        }
        self.settle_all(stock, time);
        self.tell(stock, Letter::O, time);
    }

    /// Opens a stock that waits, or trades in it, at the close, while a quote stands at a band of that reference.
    fn open_limited(&mut self, stock: usize) {
        let time = self.time(stock);
        if self.last[stock].state != WAITING {
            return self.message(stock);
        }
        self.settle_all(stock, time);
        self.clear(stock, time);
        let close = self.book.record(stock)[CLOSE];
        let Answer { lower, upper, .. } = self.foresee_with(stock, (close.into(), 1));
        let sides = self.run.chance.pick(&[(upper, 0), (0, lower)]);
        self.quote(stock, time, 3, sides);
        let letter = self.run.chance.pick(&[Letter::O, Letter::T]);
        self.price(stock, letter, time, close);
    }

    /// Trades until no place is left, close together or over almost five minutes.
    fn burst(&mut self, stock: usize) {
        let spread = self.run.chance.pick(&[1, 2, 500, 1_100]);
        for _ in 0..PLACES + 8 {
            let clock = self.book.record(stock)[CLOCK];
            let time = clock.saturating_add(self.run.chance.below(spread));
            let sight = self.sight(stock);
            let price = match sight.answer.reference {
                0 => sight.close,
                reference => self.run.chance.about(reference),
            };
            match self.price(stock, Letter::T, time, price).answer.number {
                6 => self.settle_all(stock, time),
                7 | 11 => return,
                _ => {}
            }
        }
    }
}
