//! The cases: for each a book, the calls that bring it to its start, and the calls that are timed from there.

use calls::call::Call;
use generate::chance::Chance;
use second::{Letter, Message, Setup, HELD_AT_MOST, PARTICIPANTS};

use crate::script::Script;

const END: u32 = 23_400_000;
const PRICE: u32 = 100_000;
/// A time after every moment that follows from the opening or is at 900,000.
const NOON: u32 = 1_000_000;
/// How many calls are timed in one stretch, unless the case says otherwise.
const STRETCH: u32 = 1_024;

/// A case: what is timed, and from which start.
pub struct Case {
    pub name: String,
    pub setups: Vec<Setup>,
    pub end: u32,
    /// The calls that bring the book from its setup to the start.
    pub before: Vec<Call>,
    pub calls: Vec<Call>,
    /// The number by which a stretch's time is divided.
    pub counted: usize,
    /// Whether the floor, a pass over the held trades, is timed for it.
    pub has_floor: bool,
}

fn setups(stocks: u32) -> Vec<Setup> {
    let setup = |stock| Setup {
        tier: 1,
        leverage: 1,
        primary: stock % PARTICIPANTS as u32,
        close: PRICE,
    };
    (0..stocks).map(setup).collect()
}

fn message(letter: Letter, stock: u32, time: u32, price: u32) -> Message {
    Message {
        letter,
        stock,
        time,
        participant: stock % PARTICIPANTS as u32,
        price,
        bid: 0,
        offer: 0,
    }
}

fn quote(stock: u32, time: u32, participant: u32, bid: u32, offer: u32) -> Message {
    Message {
        participant,
        bid,
        offer,
        ..message(Letter::Q, stock, time, 0)
    }
}

/// The i-th quote of a series in which the best bid and the best offer keep changing.
fn next_quote(i: u32, stock: u32, time: u32) -> Message {
    let away = 100 * (1 + i * 7 % 23);
    quote(stock, time, i % 16, PRICE - away, PRICE + 2 * away)
}

/// A book of stocks just after setup.
fn empty_book(stocks: u32) -> Script {
    Script::new(&setups(stocks), END)
}

/// A book of stocks in Trading, with all quotes and this many trades each, the last at the clock, and no moment due.
fn book(stocks: u32, held: u32) -> Script {
    let mut script = empty_book(stocks);
    for stock in 0..stocks {
        script.tell(message(Letter::O, stock, 1_000, PRICE));
        script.settle_and_tell(next_quote(0, stock, NOON));
        for i in 1..16 {
            script.tell(next_quote(i, stock, NOON));
        }
        for i in 0..held {
            script.tell(message(Letter::T, stock, NOON + i, PRICE + i * 37 % 200));
        }
    }
    script
}

/// The case that starts where the script was cut, and times the calls since.
fn case(name: &str, before: Vec<Call>, mut script: Script) -> Case {
    let calls = script.cut();
    let stocks = script.book.len() as u32;
    Case {
        name: name.to_string(),
        setups: setups(stocks),
        end: END,
        before,
        counted: calls.len(),
        has_floor: true,
        calls,
    }
}

fn quotes(stocks: u32, held: u32) -> Case {
    let mut script = book(stocks, held);
    let before = script.cut();
    let time = NOON + held;
    for i in 0..STRETCH.max(32 * stocks) {
        script.tell(next_quote(i / stocks, i % stocks, time));
    }
    let name = match stocks {
        1 => format!("quote, {held} held"),
        _ => format!("quote to {stocks} stocks in turn, {held} held by each"),
    };
    Case {
        has_floor: held > 0,
        ..case(&name, before, script)
    }
}

/// Four stocks, so that a stretch is long although each stock has room for only a few more trades.
fn trades(from: u32) -> Case {
    let mut script = book(4, from);
    let before = script.cut();
    for i in 0..128 {
        let price = PRICE + i * 53 % 200;
        script.tell(message(Letter::T, i % 4, NOON + from, price));
    }
    let name = format!("trade, {from} to {} held", from + 31);
    case(&name, before, script)
}

fn nothing_due(held: u32) -> Case {
    let mut script = book(1, held);
    let before = script.cut();
    for _ in 0..STRETCH {
        script.settle(0, NOON + held);
    }
    Case {
        has_floor: held > 0,
        ..case(&format!("settle, nothing due, {held} held"), before, script)
    }
}

/// The reference is the mean of two trades that have left.
fn nothing_due_mean() -> Case {
    let mut script = book(1, 0);
    script.tell(message(Letter::T, 0, NOON, PRICE + 900));
    script.tell(message(Letter::T, 0, NOON, PRICE + 1_301));
    script.settle_and_tell(next_quote(0, 0, NOON + 300_000));
    let before = script.cut();
    for _ in 0..STRETCH {
        script.settle(0, NOON + 300_000);
    }
    Case {
        has_floor: false,
        ..case(
            "settle, nothing due, 0 held, the reference a mean",
            before,
            script,
        )
    }
}

fn reads(held: u32) -> Case {
    let mut script = book(1, held);
    let before = script.cut();
    script.calls = vec![Call::Read { stock: 0 }; STRETCH as usize];
    case(&format!("read, {held} held"), before, script)
}

/// Each call lets one trade leave, until none is held.
fn leavings() -> Case {
    let most = HELD_AT_MOST as u32;
    let mut script = book(1, most);
    let before = script.cut();
    for i in 0..most {
        script.settle(0, NOON + i + 300_000);
    }
    case("settle, a trade leaves, 512 to 1 held", before, script)
}

/// One participant alone bids nothing and offers at the lower band, then above it: Limit is entered, and left for the mean.
fn limits() -> Case {
    let most = HELD_AT_MOST as u32;
    let (mut script, time) = (book(1, most), NOON + most);
    for i in 0..16 {
        script.tell(quote(0, time, i, 0, PRICE));
    }
    let before = script.cut();
    for i in 0..STRETCH {
        let lower = second::read(&script.book, 0).lower;
        let offer = if i % 2 == 0 { lower } else { PRICE };
        script.tell(quote(0, time, 0, 0, offer));
    }
    case(
        "quote into and out of a limit state, 512 held",
        before,
        script,
    )
}

/// Four stocks whose prices walk, a message every 56 milliseconds: 28 of 100 are trades, so that each stock comes to hold some
/// 370; one in 100 is a trade far outside the bands, and the others are quotes.
fn day() -> Case {
    const STOCKS: u32 = 4;
    const MESSAGES: u32 = 20_000;
    let (mut script, mut chance) = (empty_book(STOCKS), Chance::new(1));
    let mut prices = [PRICE; STOCKS as usize];
    for stock in 0..STOCKS {
        script.settle_and_tell(message(Letter::O, stock, 1_000, PRICE));
    }
    for i in STOCKS..MESSAGES {
        let (stock, time) = (chance.below(STOCKS), 1_000 + 56 * i);
        let price = prices[stock as usize] + chance.below(61) - 30;
        prices[stock as usize] = price;
        let (bid, offer) = (
            price - 100 * (1 + chance.below(8)),
            price + 100 * (1 + chance.below(8)),
        );
        script.settle_and_tell(match chance.below(100) {
            0 => message(Letter::T, stock, time, 2 * price),
            1..=28 => message(Letter::T, stock, time, price),
            _ => quote(stock, time, chance.below(16), bid, offer),
        });
    }
    Case {
        counted: MESSAGES as usize,
        has_floor: false,
        ..case(
            "a message of a mixed day, with its settling",
            Vec::new(),
            script,
        )
    }
}

fn setup_of_all() -> Case {
    let mut script = empty_book(64);
    script.calls = vec![Call::Setup; 16];
    Case {
        has_floor: false,
        ..case("setup of 64 stocks", Vec::new(), script)
    }
}

/// How each case is made, in the order of the table.
pub const ALL: [fn() -> Case; 13] = [
    || quotes(1, 0),
    || quotes(1, 64),
    || quotes(1, 512),
    || quotes(64, 512),
    limits,
    || trades(480),
    || nothing_due(0),
    nothing_due_mean,
    || nothing_due(512),
    leavings,
    || reads(512),
    day,
    setup_of_all,
];
