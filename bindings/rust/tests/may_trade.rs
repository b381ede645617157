//! Tests `may_trade` in two ways: for every number and every state against the table in include/sumpheron.h, and in every state that
//! calls can reach against the library, which must accept a trade at a price exactly if the price may trade.

use sumpheron::{raw, Answer, Book, Number, Setup, State, HIGHEST_PRICE};

const END: u32 = 3_600_000;
const LATE: u32 = END - 600_000;
const SETUP: Setup = Setup::new(2, 1, 2, 115_000);
/// The bands of 115,000 while the factor is 2.
const LOWER: u32 = 92_000;
const UPPER: u32 = 138_000;

/// Prices at and next to each edge: of the range of prices, and of the bands.
const PRICES: [u32; 12] = [
    0,
    1,
    2,
    LOWER - 1,
    LOWER,
    LOWER + 1,
    UPPER - 1,
    UPPER,
    UPPER + 1,
    HIGHEST_PRICE,
    HIGHEST_PRICE + 1,
    u32::MAX,
];
const ALL: &[u32] = &[
    1,
    2,
    91_999,
    92_000,
    92_001,
    137_999,
    138_000,
    138_001,
    999_999_999,
];
const BETWEEN: &[u32] = &[92_000, 92_001, 137_999, 138_000];

/// Which of PRICES may trade in each state; the last row is for a number that is no state.
const BY_STATE: [&[u32]; 7] = [ALL, BETWEEN, BETWEEN, &[], &[], &[], &[]];
/// The named numbers after which no price may trade: those that are about no stock, and the one while a moment is due.
const NO_TRADE: [Number; 4] = [
    Number::Rubbish,
    Number::BadSetup,
    Number::NoStock,
    Number::Unsettled,
];

/// What an answer says of each price, both as a result and in a refusal.
fn allowed(raw: raw::Answer) -> Vec<u32> {
    let may = |price: &u32| match Answer::try_from(raw) {
        Ok(answer) => answer.may_trade(*price),
        Err(refusal) => refusal.may_trade(*price),
    };
    PRICES.iter().copied().filter(may).collect()
}

#[test]
fn every_number_and_every_state_is_as_the_table_says() {
    for number in (0..100).chain([u32::MAX]) {
        let name = Number::from(number);
        let trades = name != Number::Unknown(number) && !NO_TRADE.contains(&name);
        for (state, prices) in (0..).zip(BY_STATE).chain([(u32::MAX, &[][..])]) {
            let mut raw = raw::Answer::default();
            (raw.number, raw.state) = (number, state);
            (raw.lower, raw.upper) = (LOWER, UPPER);
            let wanted = if trades { prices } else { &[] };
            assert_eq!(allowed(raw), wanted, "number {number}, state {state}");
        }
    }
}

#[test]
fn bands_may_lie_outside_the_prices() {
    let mut raw = raw::Answer::default();
    raw.state = State::Trading.raw();
    assert_eq!(allowed(raw), [], "no bands");
    raw.upper = 1_500_000_000;
    assert_eq!(allowed(raw), ALL);
}

/// Checks that a price may trade exactly if the library accepts a trade at it, by an answer that was read and by one in a refusal.
#[track_caller]
fn hold(book: &Book, state: State, time: u32) {
    let answer = book.read(0).unwrap();
    assert_eq!(answer.state, state);
    let refusal = book.clone().trade(0, time, 0).unwrap_err();
    assert_eq!(refusal.answer, Some(answer));
    for price in PRICES {
        let taken = book.clone().trade(0, time, price).is_ok();
        assert_eq!(answer.may_trade(price), taken, "{state}: {price}");
    }
}

#[test]
fn a_price_may_trade_where_the_library_takes_a_trade() {
    let mut book = Book::new(END, &[SETUP]).unwrap();
    hold(&book, State::Waiting, 1_000);
    book.opening(0, 1_000, 2, 115_000).unwrap();
    hold(&book, State::Trading, 1_000);
    book.quote(0, 2_000, 5, UPPER, 0).unwrap();
    hold(&book, State::Limit, 2_000);
    let due = book.trade(0, 17_000, 115_000).unwrap_err();
    assert_eq!(due.number, Number::Unsettled);
    assert!(PRICES.iter().all(|price| !due.may_trade(*price)));
    book.settle_all(0, 17_000, |_| ()).unwrap();
    hold(&book, State::Paused, 17_000);
    book.quote(0, 17_000, 5, 0, UPPER + 1).unwrap();
    book.settle_all(0, LATE, |_| ()).unwrap();
    book.pause(0, LATE, 2).unwrap();
    hold(&book, State::LatePause, LATE);
    book.settle_all(0, END + 300_000, |_| ()).unwrap();
    hold(&book, State::Closed, END + 300_000);
}

/// Checks that a refusal that is about no stock has no answer.
#[test]
fn no_price_may_trade_without_a_stock() {
    let mut book = Book::new(END, &[SETUP]).unwrap();
    let no_stock = book.read(1).unwrap_err();
    let bad_setup = book.set_up(0, &[SETUP]).unwrap_err();
    let (mut records, times, prices) = book.into_parts();
    records[0].state = 6;
    let rubbish = Book::from_parts(records, times, prices).unwrap().read(0);
    for (refusal, number) in [
        (no_stock, Number::NoStock),
        (bad_setup, Number::BadSetup),
        (rubbish.unwrap_err(), Number::Rubbish),
    ] {
        assert_eq!((refusal.number, refusal.answer), (number, None));
    }
}
