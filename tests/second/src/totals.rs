//! Day totals (document 02, request R-4): how long each stock was in each state, how many limit states
//! and pauses it had, and its highest and lowest trade.
//!
//! They are computed after the day, from the lines that the day printed. No total is kept while the day is
//! played, and each has its own definition over a stock's accepted calls. A printed line does not show the
//! price of a T, so that price alone comes from the message.

use std::io::{self, Read, Write};

use crate::day;
use crate::lines::{self, Input, Output};
use crate::messages::Message;
use crate::stock::{CLOSED, LATE_PAUSE, LIMIT, PAUSED, TRADING, WAITING};

/// A book serves up to this many stocks; the day program serves fewer.
const STOCKS_AT_MOST: u32 = 64;
const STATES: [u32; 6] = [WAITING, TRADING, LIMIT, PAUSED, LATE_PAUSE, CLOSED];

/// One stock's totals; all are 0 at setup.
#[derive(Clone, Copy, Debug, Default, PartialEq, Eq)]
pub struct Totals {
    /// The time in each state, 0 to 5.
    pub times: [u32; STATES.len()],
    pub limits: u32,
    pub pauses: u32,
    /// The highest price of an accepted T, 0 without one.
    pub highest: u32,
    /// The lowest price of an accepted T, 0 without one.
    pub lowest: u32,
}

/// One printed line, as far as the totals need it.
struct Line {
    stock: u32,
    number: u32,
    call: Call,
}

/// A message or a moment, and how it left the stock.
#[derive(Clone, Copy)]
struct Call {
    time: u32,
    mark: u8,
    state: u32,
    /// Lower and upper; 0 without bands.
    bands: (u32, u32),
    /// The price of T, O, R and X; 0 for the others.
    price: u32,
}

/// Each stock's history begins at time 0 in Waiting.
const SETUP: Call = Call {
    time: 0,
    mark: b'S',
    state: WAITING,
    bands: (0, 0),
    price: 0,
};

/// A day that was played: its number of stocks, its messages and the lines that it printed.
struct Played {
    stocks: u32,
    messages: Vec<Message>,
    printed: Vec<u8>,
}

/// Plays the day and prints a line of totals for each stock. If a line of the day is bad or missing, it
/// prints nothing and returns false. The error is the output's.
pub fn run(input: impl Read, mut output: impl Write) -> io::Result<bool> {
    let Some(all) = play(input).and_then(|day| day.totals()) else {
        return Ok(false);
    };
    for (stock, totals) in all.iter().enumerate() {
        output.write_all(totals.line(stock).as_bytes())?;
    }
    output.flush()?;
    Ok(true)
}

/// Plays the day as the day program does; none if a line is bad or missing.
fn play(input: impl Read) -> Option<Played> {
    let mut input = Input::new(input);
    let first = input.next_line()?;
    let contents = lines::contents_up_to(first, STOCKS_AT_MOST)?;
    let mut book = day::set_up(&mut input, &contents)?;
    let mut messages = Vec::new();
    let mut printed = Vec::new();
    let mut output = Output::new(&mut printed);
    for _ in 0..contents.messages {
        let m = input.next_line().and_then(lines::message)?;
        day::settle_and_tell(&mut book, &m, &mut output).ok()?;
        messages.push(m);
    }
    output.flush().ok()?;
    Some(Played {
        stocks: contents.stocks,
        messages,
        printed,
    })
}

impl Played {
    fn totals(&self) -> Option<Vec<Totals>> {
        let printed = String::from_utf8_lossy(&self.printed);
        of_day(&printed, &self.messages, self.stocks)
    }
}

/// The totals of each stock, from a day's printed lines and its messages; none if these lines do not go
/// with these messages.
pub fn of_day(printed: &str, messages: &[Message], stocks: u32) -> Option<Vec<Totals>> {
    let mut histories: Vec<Vec<Call>> = (0..stocks).map(|_| vec![SETUP]).collect();
    let mut messages = messages.iter();
    for line in printed.split_terminator('\n') {
        let mut line = Line::read(line)?;
        if line.is_message() {
            line.call.price = messages.next().filter(|m| line.is_of(m))?.price;
        }
        if line.number == 0 {
            let history = histories.get_mut(line.stock as usize)?;
            let in_order = history.last()?.time <= line.call.time;
            history.push(in_order.then_some(line.call)?);
        }
    }
    let all = histories.iter().map(|calls| Totals::of(calls)).collect();
    messages.next().is_none().then_some(all)
}

impl Line {
    /// Stock, time, mark or letter, number, state, reference, lower, upper, and four fields about quotes.
    fn read(line: &str) -> Option<Line> {
        let fields: Vec<&str> = line.split(' ').collect();
        let [stock, time, mark, number, state, _, lower, upper, _, _, _, _] = fields[..] else {
            return None;
        };
        let &[mark] = mark.as_bytes() else {
            return None;
        };
        let value = |field: &str| field.parse().ok();
        let call = Call {
            time: value(time)?,
            mark,
            state: value(state)?,
            bands: (value(lower)?, value(upper)?),
            price: 0,
        };
        Some(Line {
            stock: value(stock)?,
            number: value(number)?,
            call,
        })
    }

    /// Messages have capital letters, moments small ones.
    fn is_message(&self) -> bool {
        self.call.mark.is_ascii_uppercase()
    }

    fn is_of(&self, m: &Message) -> bool {
        (self.stock, self.call.time, self.call.mark) == (m.stock, m.time, m.letter.byte())
    }
}

impl Totals {
    /// The totals of one stock: its accepted calls in order, after SETUP.
    fn of(calls: &[Call]) -> Totals {
        let trades = calls.iter().filter(|call| is_trade(call));
        let prices = trades.map(|call| call.price);
        let pairs = calls.windows(2);
        let limits = pairs.filter(|pair| enters_limit(&pair[0], &pair[1]));
        let pauses = calls.iter().filter(|call| starts_pause(call));
        Totals {
            times: STATES.map(|state| time_in(state, calls)),
            limits: stopped(limits.count()),
            pauses: stopped(pauses.count()),
            highest: prices.clone().max().unwrap_or(0),
            lowest: prices.min().unwrap_or(0),
        }
    }

    /// Stock, the six times, limit states, pauses, highest, lowest, with a line feed.
    fn line(&self, stock: usize) -> String {
        let [a, b, c, d, e, f] = self.times;
        let (limits, pauses, highest, lowest) =
            (self.limits, self.pauses, self.highest, self.lowest);
        format!("{stock} {a} {b} {c} {d} {e} {f} {limits} {pauses} {highest} {lowest}\n")
    }
}

/// The time in a state: from each call that left the stock in it to the call after that.
fn time_in(state: u32, calls: &[Call]) -> u32 {
    let pairs = calls.windows(2).filter(|pair| pair[0].state == state);
    pairs.map(|pair| pair[1].time - pair[0].time).sum()
}

/// Whether the stock enters Limit in the second of two calls that follow each other.
///
/// If it was in Limit before too, the printed bands show whether that Limit went on. They never change
/// within one Limit. If a quote ended it, neither side had flag 3 by the old bands, and the flags depend
/// on quotes and bands only: with the same bands Limit could not have begun again. The printed reference
/// would not do, since it is rounded, and bands also change with k.
fn enters_limit(before: &Call, after: &Call) -> bool {
    after.state == LIMIT && (before.state != LIMIT || before.bands != after.bands)
}

/// A pause starts by x or by P, late or not.
fn starts_pause(call: &Call) -> bool {
    matches!(call.mark, b'x' | b'P')
}

/// The highest and the lowest price are of T only, not of O or R.
fn is_trade(call: &Call) -> bool {
    call.mark == b'T'
}

/// A count stops at 4,294,967,295.
fn stopped(count: usize) -> u32 {
    u32::try_from(count).unwrap_or(u32::MAX)
}

#[cfg(test)]
mod tests {
    use super::*;

    #[test]
    fn a_count_stops_at_the_largest_number() {
        assert_eq!(stopped(4_294_967_294), 4_294_967_294);
        assert_eq!(stopped(4_294_967_295), 4_294_967_295);
        assert_eq!(stopped(4_294_967_296), 4_294_967_295);
        assert_eq!(stopped(usize::MAX), 4_294_967_295);
    }
}
