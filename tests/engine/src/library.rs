//! The library's side: one call through the C interface.

use bytes::{Call, Given};
use second::{Letter, Message};
use sumpheron::raw;

/// The three arrays as the C interface takes them.
#[derive(Clone, Copy)]
pub struct Arrays {
    pub book: *mut raw::Record,
    pub stocks: usize,
    pub times: *mut u32,
    pub times_length: usize,
    pub prices: *mut u32,
    pub prices_length: usize,
}

/// Passes the arrays before the other arguments.
macro_rules! lend {
    ($function:ident, $a:expr $(, $argument:expr)*) => {
        raw::$function(
            $a.book, $a.stocks, $a.times, $a.times_length, $a.prices, $a.prices_length
            $(, $argument)*
        )
    };
}

/// Plays one call.
///
/// # Safety
///
/// The pointers must be aligned, not null and valid for their lengths, and no two arrays may overlap.
pub unsafe fn play(a: Arrays, call: &Call) -> Numbers {
    match *call {
        Call::Setup { end, ref setups } => answered(lend!(
            sumpheron_setup,
            a,
            end,
            setups.as_ptr(),
            setups.len()
        )),
        Call::Settle { stock, time } => {
            let notice = lend!(sumpheron_settle, a, stock, time);
            noticed(notice.answer, notice.mark, notice.time)
        }
        Call::Read { stock } => answered(lend!(sumpheron_read, a, stock)),
        Call::Next { stock } => upcoming(lend!(sumpheron_next, a, stock)),
        Call::Totals { stock } => summed(lend!(sumpheron_totals, a, stock)),
        Call::Tell(ref message) => answered(tell(a, message)),
    }
}

unsafe fn tell(a: Arrays, m: &Message) -> raw::Answer {
    let (stock, time, participant, price) = (m.stock, m.time, m.participant, m.price);
    match m.letter {
        Letter::T => lend!(sumpheron_trade, a, stock, time, price),
        Letter::Q => lend!(sumpheron_quote, a, stock, time, participant, m.bid, m.offer),
        Letter::O => lend!(sumpheron_opening, a, stock, time, participant, price),
        Letter::P => lend!(sumpheron_pause, a, stock, time, participant),
        Letter::R => lend!(sumpheron_reopening, a, stock, time, participant, price),
        Letter::X => lend!(sumpheron_closing, a, stock, time, participant, price),
    }
}

/// The result of a call, number by number: the answer's nine, then the moment's mark and time, then the ten totals.
pub type Numbers = [u32; 21];

/// The result of the byte reader, in the same order.
pub fn numbers(given: &Given) -> Numbers {
    let a = &given.answer;
    let answer = [
        a.number,
        a.state,
        a.reference,
        a.lower,
        a.upper,
        a.bid,
        a.bid_flag,
        a.offer,
        a.offer_flag,
    ];
    joined(answer, [given.mark, given.time], given.totals.numbers())
}

fn joined(answer: [u32; 9], moment: [u32; 2], totals: [u32; 10]) -> Numbers {
    let mut numbers = [0; 21];
    numbers[..9].copy_from_slice(&answer);
    numbers[9..11].copy_from_slice(&moment);
    numbers[11..].copy_from_slice(&totals);
    numbers
}

fn noticed(answer: raw::Answer, mark: u32, time: u32) -> Numbers {
    joined(answer.numbers(), [mark, time], [0; 10])
}

fn upcoming(u: raw::Upcoming) -> Numbers {
    joined(alone(u.number), [u.mark, u.time], [0; 10])
}

fn summed(summary: raw::Summary) -> Numbers {
    let t = summary.totals;
    let totals = [
        t.spent.waiting,
        t.spent.trading,
        t.spent.limit,
        t.spent.paused,
        t.spent.late_pause,
        t.spent.closed,
        t.limit_states,
        t.pauses,
        t.highest,
        t.lowest,
    ];
    joined(alone(summary.number), [0; 2], totals)
}

fn answered(answer: raw::Answer) -> Numbers {
    noticed(answer, 0, 0)
}

/// An answer of this number and zeros.
fn alone(number: u32) -> [u32; 9] {
    [number, 0, 0, 0, 0, 0, 0, 0, 0]
}
