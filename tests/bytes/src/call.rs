//! The calls of the C interface: how each is checked and done on the bytes.

use second::{read, settle, tell, Answer, Letter, Message, Notice, Setup, Stock};

use crate::field::WORDS;
use crate::record::{self, Part};
use crate::totals::Totals;
use crate::PLACES;

/// A setup's list has this many numbers for each stock.
const SETUP: usize = 4;
const STOCKS_AT_MOST: usize = 64;

/// The three arrays that a call gets.
pub struct Lent<'a> {
    pub records: &'a mut [[u32; WORDS]],
    pub times: &'a mut [u32],
    pub prices: &'a mut [u32],
}

/// One call, with its arguments after the arrays.
#[derive(Clone, Debug)]
pub enum Call {
    Setup { end: u32, setups: Vec<u32> },
    Settle { stock: u32, time: u32 },
    Read { stock: u32 },
    Next { stock: u32 },
    Totals { stock: u32 },
    Tell(Message),
}

/// What a call returns. Mark and time are 0 if no moment was done, or none is to come. Only `Totals` gives totals; others give zeros. For
/// `Next` and `Totals`, only the number of the answer is set.
#[derive(Clone, Copy, Debug, Default, PartialEq, Eq)]
pub struct Given {
    pub answer: Answer,
    pub mark: u32,
    pub time: u32,
    pub totals: Totals,
}

/// Plays one call. A call with a number other than 0 changes no byte.
pub fn play(lent: &mut Lent, call: &Call) -> Given {
    if !has_right_shape(lent) {
        return zeros(1);
    }
    match *call {
        Call::Setup { end, ref setups } => set_up(lent, end, setups),
        Call::Settle { stock, time } => {
            on_stock(lent, stock, None, |book| noticed(settle(book, 0, time)))
        }
        Call::Read { stock } => on_stock(lent, stock, None, |book| answered(read(book, 0))),
        Call::Next { stock } => on_stock(lent, stock, None, |book| next(book)),
        Call::Totals { stock } => totals(lent, stock),
        Call::Tell(ref message) => told(lent, message),
    }
}

fn has_right_shape(lent: &Lent) -> bool {
    let stocks = lent.records.len();
    let places = PLACES * stocks;
    (1..=STOCKS_AT_MOST).contains(&stocks)
        && lent.times.len() == places
        && lent.prices.len() == places
}

/// Sets up the whole book: writes every byte of the three arrays.
fn set_up(lent: &mut Lent, end: u32, numbers: &[u32]) -> Given {
    if numbers.len() != SETUP * lent.records.len() {
        return zeros(1);
    }
    let setups: Vec<Setup> = numbers.chunks(SETUP).map(record::setup).collect();
    if let Err(number) = second::setup(&setups, end) {
        return zeros(number);
    }
    for (record, setup) in lent.records.iter_mut().zip(&setups) {
        *record = record::start(setup, end);
    }
    lent.times.fill(0);
    lent.prices.fill(0);
    zeros(0)
}

/// Reads the stock's bytes, plays the call on the stock, and writes it back if the call was accepted. `trade` is the price of a T.
fn on_stock(
    lent: &mut Lent,
    stock: u32,
    trade: Option<u32>,
    judge: impl Fn(&mut [Stock]) -> Given,
) -> Given {
    let index = stock as usize;
    if index >= lent.records.len() {
        return zeros(3);
    }
    let places = PLACES * index..PLACES * (index + 1);
    let mut part = Part {
        record: &mut lent.records[index],
        times: &mut lent.times[places.clone()],
        prices: &mut lent.prices[places],
    };
    let Some(before) = part.read() else {
        return zeros(1);
    };
    let mut book = [before.clone()];
    let given = judge(&mut book);
    if given.answer.number == 0 {
        part.write(&before, &book[0], trade);
    }
    given
}

fn told(lent: &mut Lent, message: &Message) -> Given {
    let trade = (message.letter == Letter::T).then_some(message.price);
    let alone = Message {
        stock: 0,
        ..*message
    };
    on_stock(lent, message.stock, trade, |book| {
        answered(tell(book, &alone))
    })
}

/// The stock's totals, with the number that reading the stock answers.
fn totals(lent: &mut Lent, stock: u32) -> Given {
    let given = on_stock(lent, stock, None, |book| zeros(read(book, 0).number));
    match given.answer.number {
        0 => Given {
            totals: Totals::of(&lent.records[stock as usize]),
            ..given
        },
        _ => given,
    }
}

/// The earliest moment still to come of the only stock in a book, with the number that reading the stock answers.
fn next(book: &[Stock]) -> Given {
    let given = zeros(read(book, 0).number);
    match book[0].moments().first() {
        Some(&(mark, time)) if given.answer.number == 0 => Given {
            mark: u32::from(mark),
            time,
            ..given
        },
        _ => given,
    }
}

fn noticed(notice: Notice) -> Given {
    Given {
        answer: notice.answer,
        mark: u32::from(notice.mark),
        time: notice.time,
        ..Given::default()
    }
}

fn answered(answer: Answer) -> Given {
    Given {
        answer,
        ..Given::default()
    }
}

/// This number, with all other fields 0.
fn zeros(number: u32) -> Given {
    answered(Answer {
        number,
        ..Answer::default()
    })
}
