//! Plays the traffic on a book while the traffic is generated.

use calls::sides::Library;
use second::{Letter, Message};
use sumpheron::raw;

use crate::sent::Sent;
use crate::tally::Tally;

/// Plays messages on a book, records them, and counts what happens.
pub struct Feed<'a> {
    pub book: &'a mut Library,
    /// The book's place among those of its thread.
    pub place: u8,
    pub sent: &'a mut Vec<Sent>,
    pub tally: &'a mut Tally,
}

impl Feed<'_> {
    /// Does the moments up to this time, and returns the stock's answer after them.
    pub fn settle(&mut self, stock: u32, time: u32) -> raw::Answer {
        loop {
            let before = self.record(stock).state;
            let notice = self.book.settle(stock, time);
            self.tally.count.calls += 1;
            self.tally.change(before, notice.answer.state);
            if notice.answer.number != 0 {
                return notice.answer;
            }
        }
    }

    /// Tells a message. The stock must be settled to its time.
    pub fn tell(&mut self, m: Message) {
        let record = self.record(m.stock);
        self.tally.hold(record.trades);
        let answer = self.book.tell(&m);
        self.sent.push(Sent::new(self.place, &m));
        self.tally.count.calls += 1;
        self.tally.change(record.state, answer.state);
        self.tally.count.refused += u64::from(answer.number != 0);
        match m.letter {
            Letter::Q => self.tally.quotes += 1,
            Letter::T => self.tally.trades += 1,
            Letter::P if answer.number == 0 => self.tally.declared += 1,
            Letter::R if answer.number == 0 => self.tally.reopenings += 1,
            _ => {}
        }
    }

    pub fn record(&self, stock: u32) -> raw::Record {
        self.book.records[stock as usize]
    }
}
