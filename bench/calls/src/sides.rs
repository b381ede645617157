//! The three sides that are timed: the library, the second implementation, and the floor.

use std::hint::black_box;
use std::mem::take;

use second::{Letter, Message, Setup, Stock, HELD_AT_MOST};
use sumpheron::raw;

use crate::call::{Call, See};

/// A side, which plays calls on its own book.
pub trait Side: Clone {
    /// A book that is not yet set up.
    fn new(setups: &[Setup], end: u32) -> Self;
    /// Plays the calls one after another.
    fn play(&mut self, calls: &[Call], see: &mut impl See);
    /// Copies `start` into this side's own memory.
    fn restore(&mut self, start: &Self);
}

/// The library, with the arrays of its book.
#[derive(Clone)]
pub struct Library {
    end: u32,
    setups: Vec<u32>,
    pub records: Vec<raw::Record>,
    pub times: Vec<u32>,
    pub prices: Vec<u32>,
}

impl Library {
    /// The size of the book's arrays, in bytes.
    pub fn lent(&self) -> usize {
        let places = size_of_val(&self.times[..]) + size_of_val(&self.prices[..]);
        size_of_val(&self.records[..]) + places
    }

    #[inline(always)]
    pub fn setup(&mut self) -> raw::Answer {
        let (stocks, places) = (self.records.len(), self.times.len());
        let (book, times) = (self.records.as_mut_ptr(), self.times.as_mut_ptr());
        let (prices, setups) = (self.prices.as_mut_ptr(), self.setups.as_ptr());
        let (end, numbers) = (self.end, self.setups.len());
        // SAFETY: the pointers and lengths are those of four vectors.
        unsafe {
            raw::sumpheron_setup(
                book, stocks, times, places, prices, places, end, setups, numbers,
            )
        }
    }

    #[inline(always)]
    pub fn settle(&mut self, stock: u32, time: u32) -> raw::Notice {
        let (stocks, places) = (self.records.len(), self.times.len());
        let (book, times) = (self.records.as_mut_ptr(), self.times.as_mut_ptr());
        let prices = self.prices.as_mut_ptr();
        // SAFETY: the pointers and lengths are those of three vectors.
        unsafe { raw::sumpheron_settle(book, stocks, times, places, prices, places, stock, time) }
    }

    #[inline(always)]
    fn read(&self, stock: u32) -> raw::Answer {
        let (stocks, places) = (self.records.len(), self.times.len());
        let (book, times) = (self.records.as_ptr(), self.times.as_ptr());
        let prices = self.prices.as_ptr();
        // SAFETY: the pointers and lengths are those of three vectors.
        unsafe { raw::sumpheron_read(book, stocks, times, places, prices, places, stock) }
    }

    #[inline(always)]
    pub fn tell(&mut self, m: &Message) -> raw::Answer {
        let (n, l) = (self.records.len(), self.times.len());
        let (book, t) = (self.records.as_mut_ptr(), self.times.as_mut_ptr());
        let p = self.prices.as_mut_ptr();
        let (stock, time, who, price) = (m.stock, m.time, m.participant, m.price);
        // SAFETY: the pointers and lengths are those of three vectors.
        unsafe {
            match m.letter {
                Letter::T => raw::sumpheron_trade(book, n, t, l, p, l, stock, time, price),
                Letter::Q => {
                    raw::sumpheron_quote(book, n, t, l, p, l, stock, time, who, m.bid, m.offer)
                }
                Letter::O => raw::sumpheron_opening(book, n, t, l, p, l, stock, time, who, price),
                Letter::P => raw::sumpheron_pause(book, n, t, l, p, l, stock, time, who),
                Letter::R => raw::sumpheron_reopening(book, n, t, l, p, l, stock, time, who, price),
                Letter::X => raw::sumpheron_closing(book, n, t, l, p, l, stock, time, who, price),
            }
        }
    }
}

impl Side for Library {
    fn new(setups: &[Setup], end: u32) -> Library {
        let numbers = |s: &Setup| [s.tier, s.leverage, s.primary, s.close];
        Library {
            end,
            setups: setups.iter().flat_map(numbers).collect(),
            records: vec![raw::Record::default(); setups.len()],
            times: vec![0; HELD_AT_MOST * setups.len()],
            prices: vec![0; HELD_AT_MOST * setups.len()],
        }
    }

    #[inline(never)]
    fn play(&mut self, calls: &[Call], see: &mut impl See) {
        for call in calls {
            match call {
                Call::Setup => see.see(&self.setup()),
                Call::Settle { stock, time } => see.see(&self.settle(*stock, *time)),
                Call::Read { stock } => see.see(&self.read(*stock)),
                Call::Tell(m) => see.see(&self.tell(m)),
            }
        }
    }

    fn restore(&mut self, start: &Library) {
        self.records.copy_from_slice(&start.records);
        self.times.copy_from_slice(&start.times);
        self.prices.copy_from_slice(&start.prices);
    }
}

/// The second implementation, with the book that its setup makes.
#[derive(Clone)]
pub struct Second {
    end: u32,
    setups: Vec<Setup>,
    pub book: Vec<Stock>,
}

impl Second {
    #[inline(always)]
    fn setup(&mut self) -> second::Answer {
        let (book, number) = match second::setup(&self.setups, self.end) {
            Ok(book) => (book, 0),
            Err(number) => (Vec::new(), number),
        };
        self.book = book;
        second::Answer {
            number,
            ..second::Answer::default()
        }
    }
}

impl Side for Second {
    fn new(setups: &[Setup], end: u32) -> Second {
        Second {
            end,
            setups: setups.to_vec(),
            book: Vec::new(),
        }
    }

    #[inline(never)]
    fn play(&mut self, calls: &[Call], see: &mut impl See) {
        for call in calls {
            match call {
                Call::Setup => see.see(&self.setup()),
                Call::Settle { stock, time } => {
                    see.see(&second::settle(&mut self.book, *stock, *time))
                }
                Call::Read { stock } => see.see(&second::read(&self.book, *stock)),
                Call::Tell(m) => see.see(&second::tell(&mut self.book, m)),
            }
        }
    }

    /// Copies into the existing windows, which keep their capacity for 512 trades; a clone would lose it.
    fn restore(&mut self, start: &Second) {
        for (mine, theirs) in self.book.iter_mut().zip(&start.book) {
            let mut trades = take(&mut mine.trades);
            trades.clear();
            trades.reserve(HELD_AT_MOST);
            trades.extend_from_slice(&theirs.trades);
            *mine = theirs.clone();
            mine.trades = trades;
        }
    }
}

/// The floor: for each call one plain pass over the trades that the call's stock holds.
pub struct Floor {
    pub times: Vec<u32>,
    pub prices: Vec<u32>,
    /// For each call the first place of its stock, and how many trades it holds before the call.
    pub passes: Vec<(usize, usize)>,
}

impl Floor {
    pub fn play(&self) {
        for &(first, held) in &self.passes {
            let places = first..first + held;
            black_box(pass(&self.times[places.clone()], &self.prices[places]));
        }
    }
}

/// Reads each held time and each held price once.
#[inline(never)]
fn pass(times: &[u32], prices: &[u32]) -> (u32, u64) {
    let (mut latest, mut sum) = (0, 0);
    for (&time, &price) in times.iter().zip(prices) {
        latest = latest.max(time);
        sum += u64::from(price);
    }
    (latest, sum)
}
