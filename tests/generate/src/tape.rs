//! The day while it is written: each message is also told to a book, on which the choice of the next one depends.

use second::{settle, setup, tell, Answer, Letter, Message, Setup, Stock};

/// Times may exceed the session's end by this much.
pub const AFTER_END: u32 = 300_000;

pub struct Tape {
    pub book: Vec<Stock>,
    pub end: u32,
    setups: Vec<Setup>,
    pub messages: Vec<String>,
}

impl Tape {
    /// A day that begins with these setups, which must be in range.
    pub fn new(setups: Vec<Setup>, end: u32) -> Tape {
        Tape {
            book: setup(&setups, end).expect("setups in range"),
            end,
            setups,
            messages: Vec::new(),
        }
    }

    /// Does all moments up to this time, as the day program does before a message of that time.
    pub fn settle(&mut self, stock: usize, time: u32) {
        while settle(&mut self.book, stock as u32, time).answer.number == 0 {}
    }

    /// Settles to the message's time, tells the message and writes its line.
    pub fn send(&mut self, m: Message) -> Answer {
        if (m.stock as usize) < self.book.len() {
            self.settle(m.stock as usize, m.time);
        }
        self.messages.push(line(&m));
        tell(&mut self.book, &m)
    }

    /// The answer that a stock would give after settling to this time and these messages.
    pub fn foresee(&self, stock: usize, time: u32, messages: &[Message]) -> Answer {
        let mut copy = vec![self.book[stock].clone()];
        while settle(&mut copy, 0, time).answer.number == 0 {}
        for m in messages {
            tell(&mut copy, &Message { stock: 0, ..*m });
        }
        second::read(&copy, 0)
    }

    /// The text of the whole day. It announces this many messages more than there are, and ends with these bytes.
    pub fn text(&self, missing: usize, after: &[u8]) -> Vec<u8> {
        let announced = self.messages.len() + missing;
        let mut text = format!("C {} {} {}\n", self.setups.len(), announced, self.end);
        for s in &self.setups {
            text += &format!("S {} {} {} {}\n", s.tier, s.leverage, s.primary, s.close);
        }
        text += &self.messages.concat();
        let mut bytes = text.into_bytes();
        bytes.extend_from_slice(after);
        bytes
    }
}

/// A message's line, with the fields that its letter has.
pub fn line(m: &Message) -> String {
    let letter = m.letter.byte() as char;
    let start = format!("{} {} {}", letter, m.stock, m.time);
    match m.letter {
        Letter::T => format!("{start} {}\n", m.price),
        Letter::Q => format!("{start} {} {} {}\n", m.participant, m.bid, m.offer),
        Letter::P => format!("{start} {}\n", m.participant),
        Letter::O | Letter::R | Letter::X => format!("{start} {} {}\n", m.participant, m.price),
    }
}
