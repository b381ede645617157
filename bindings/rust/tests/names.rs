//! Compares the named numbers, states, flags, marks and sizes with the library's: calls produce each of them, and the result is compared
//! with the named constant.

use std::fmt::Debug;
use sumpheron::{raw, Book, Flag, Mark, Number, Refusal, Setup, State};
use sumpheron::{HIGHEST_PRICE, MOST_STOCKS, PARTICIPANTS, PLACES, VERSION};

const END: u32 = 3_600_000;
const LATE: u32 = END - 600_000;
const PRIMARY: u32 = 2;
const OTHER: u32 = 5;
const PRICE: u32 = 115_000;
const SETUP: Setup = Setup::new(2, 1, PRIMARY, PRICE);
/// While the factor is 2, the bands of the price are 92,000 and 138,000.
const UPPER: u32 = 138_000;
const ABOVE: u32 = UPPER + 1;

/// How many names were compared with the library.
struct Held(usize);

impl Held {
    #[track_caller]
    fn hold<T: Debug + PartialEq>(&mut self, name: T, given: T) {
        assert_eq!(given, name, "the library's, and what is named");
        self.0 += 1;
    }
}

/// The number of a result: that of the refusal, or `Done`.
fn number<T>(result: Result<T, Refusal>) -> Number {
    result.err().map_or(Number::Done, |refusal| refusal.number)
}

/// Does all moments of a stock up to a time, and returns the mark of the last one.
fn settle(book: &mut Book, stock: u32, time: u32) -> Mark {
    let mut last = Mark::NoMoment;
    book.settle_all(stock, time, |notice| last = notice.mark)
        .unwrap();
    last
}

fn state(book: &Book) -> State {
    book.read(0).unwrap().state
}

/// The mark, and the flag of an absent bid, that the library writes when settling does nothing.
fn nothing(book: &mut Book) -> (Mark, Flag) {
    let (mut records, mut times, mut prices) = book.clone().into_parts();
    // SAFETY: each array is a vector's own pointer and length, and no two vectors overlap.
    let notice = unsafe {
        raw::sumpheron_settle(
            records.as_mut_ptr(),
            records.len(),
            times.as_mut_ptr(),
            times.len(),
            prices.as_mut_ptr(),
            prices.len(),
            0,
            0,
        )
    };
    (notice.mark.into(), notice.answer.bid_flag.into())
}

/// Sets up a book of this many stocks in a way that leaves all checks to the library.
fn set_up(end: u32, stocks: usize) -> Number {
    let records = vec![raw::Record::default(); stocks];
    let places = vec![0; stocks * PLACES];
    let mut book = Book::from_parts(records, places.clone(), places).unwrap();
    number(book.set_up(end, &vec![SETUP; stocks]))
}

/// A stock waits, trades, and is at a limit.
fn play_day(book: &mut Book, held: &mut Held) {
    held.hold(Number::Done, number(book.read(0)));
    held.hold(State::Waiting, state(book));
    let (mark, flag) = nothing(book);
    held.hold(Mark::NoMoment, mark);
    held.hold(Flag::Absent, flag);
    held.hold(Number::WrongState, number(book.pause(0, 1_000, PRIMARY)));
    book.trade(0, 1_000, PRICE).unwrap();
    held.hold(Number::BeforeClock, number(book.trade(0, 999, PRICE)));
    held.hold(Number::NothingDue, number(book.settle(0, 299_999)));
    held.hold(Number::Unsettled, number(book.trade(0, 300_000, PRICE)));
    held.hold(Mark::F, settle(book, 0, 300_000));
    held.hold(State::Trading, state(book));
    held.hold(Mark::V, settle(book, 0, 301_000));
    held.hold(Mark::H, settle(book, 0, 330_000));
    held.hold(Number::NoStraddle, number(book.pause(0, 400_000, PRIMARY)));
    let quoted = book.quote(0, 400_000, OTHER, PRICE, ABOVE).unwrap();
    held.hold(Flag::Plain, quoted.bid.unwrap().flag);
    held.hold(Flag::NonExecutable, quoted.offer.unwrap().flag);
    held.hold(Number::OutsideBands, number(book.trade(0, 400_000, ABOVE)));
    held.hold(Number::NotPrimary, number(book.pause(0, 400_000, OTHER)));
    let limit = book.quote(0, 500_000, OTHER, UPPER, 0).unwrap();
    held.hold(Flag::Limit, limit.bid.unwrap().flag);
    held.hold(State::Limit, limit.state);
}

/// The same stock pauses, trades again, and closes at the session's end.
fn play_on(book: &mut Book, held: &mut Held) {
    held.hold(Mark::X, settle(book, 0, 515_000));
    held.hold(State::Paused, state(book));
    held.hold(Number::InPause, number(book.trade(0, 515_000, PRICE)));
    let reopening = book.reopening(0, 814_999, PRIMARY, PRICE);
    held.hold(Number::NotYet, number(reopening));
    held.hold(Mark::W, settle(book, 0, 900_000));
    held.hold(Mark::P, settle(book, 0, 1_115_000));
    book.quote(0, 1_115_000, OTHER, 0, 0).unwrap();
    held.hold(Mark::Z, settle(book, 0, END));
    held.hold(State::Closed, state(book));
    held.hold(Number::ClosedStock, number(book.trade(0, END, PRICE)));
}

/// A stock goes into a late pause.
fn play_late_pause(book: &mut Book, held: &mut Held) {
    book.opening(1, 1_000, PRIMARY, PRICE).unwrap();
    settle(book, 1, LATE);
    book.quote(1, LATE, OTHER, 0, ABOVE).unwrap();
    let paused = book.pause(1, LATE, PRIMARY).unwrap();
    held.hold(State::LatePause, paused.state);
    held.hold(Mark::C, settle(book, 1, END + 300_000));
}

/// Counts the numbers that have a name.
fn named<T: From<u32> + PartialEq>(unknown: fn(u32) -> T) -> usize {
    (0..1_000).filter(|&n| T::from(n) != unknown(n)).count()
}

#[test]
fn every_name_is_what_the_library_gives() {
    let mut held = Held(0);
    let mut book = Book::new(END, &[SETUP; 2]).unwrap();
    play_day(&mut book, &mut held);
    play_on(&mut book, &mut held);
    play_late_pause(&mut book, &mut held);
    held.hold(Number::BadSetup, set_up(0, 1));
    held.hold(Number::Rubbish, set_up(END, 0));
    held.hold(Number::NoStock, number(book.read(2)));
    held.hold(Number::OutOfRange, number(book.trade(1, 1_000, 0)));
    let mut full = Book::new(END, &[SETUP]).unwrap();
    for _ in 0..PLACES {
        full.trade(0, 1_000, PRICE).unwrap();
    }
    held.hold(Number::NoRoom, number(full.trade(0, 1_000, PRICE)));
    let mut waiting = Book::new(END, &[SETUP]).unwrap();
    settle(&mut waiting, 0, 300_000);
    let opening = waiting.opening(0, 300_000, PRIMARY, PRICE);
    held.hold(Number::TooLate, number(opening));

    let names = [
        named(Number::Unknown),
        named(State::Unknown),
        named(Flag::Unknown),
        named(Mark::Unknown),
    ];
    assert_eq!(names.iter().sum::<usize>(), held.0, "names, and those held");
    println!("{} names held", held.0);
}

#[test]
fn every_size_is_what_the_library_takes() {
    assert_eq!(set_up(END, MOST_STOCKS), Number::Done);
    assert_eq!(set_up(END, MOST_STOCKS + 1), Number::Rubbish);

    let mut book = Book::new(END, &[SETUP]).unwrap();
    for _ in 0..PLACES {
        assert!(book.trade(0, 1_000, HIGHEST_PRICE).is_ok());
    }
    let mut trade = |price| number(book.trade(0, 1_000, price));
    assert_eq!(trade(HIGHEST_PRICE), Number::NoRoom);
    assert_eq!(trade(HIGHEST_PRICE + 1), Number::OutOfRange);

    let mut quote = |participant: usize| book.quote(0, 1_000, participant as u32, PRICE, 0);
    assert!(quote(PARTICIPANTS - 1).is_ok());
    assert_eq!(number(quote(PARTICIPANTS)), Number::OutOfRange);
}

#[test]
fn the_library_is_of_the_version_that_is_named() {
    // SAFETY: the function takes no argument.
    assert_eq!(unsafe { raw::sumpheron_version() }, VERSION);
}
