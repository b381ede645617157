//! Tests a `Book` as a Rust value, and the contents of its answers.

use std::fmt::Debug;
use sumpheron::{raw, Answer, Book, Error, Flag, Mark, Notice, Number, Refusal, Setup, State};
use sumpheron::{StateTimes, MOST_STOCKS, PARTICIPANTS, PLACES};

const END: u32 = 23_400_000;
const SETUP: Setup = Setup::new(2, 1, 2, 115_000);

/// The number of a refusal.
#[track_caller]
fn number<T: Debug>(refused: Result<T, Refusal>) -> Number {
    refused.unwrap_err().number
}

/// The number that refused a book.
fn no_book(end: u32, setups: &[Setup]) -> Number {
    match Book::new(end, setups) {
        Err(Error::Refused(refusal)) => refusal.number,
        other => panic!("{other:?}"),
    }
}

fn book() -> Book {
    Book::new(END, &[SETUP; 2]).unwrap()
}

/// A book whose stock 0 trades between 92,000 and 138,000, with an offer above.
fn trading() -> Book {
    let mut book = book();
    book.opening(0, 1_000, 2, 115_000).unwrap();
    book.quote(0, 2_000, 5, 114_900, 138_001).unwrap();
    book
}

#[test]
fn answers_name_what_the_library_says() {
    let mut book = book();
    let waiting = book.read(0).unwrap();
    assert_eq!(waiting.state, State::Waiting);
    assert_eq!((waiting.reference, waiting.bands), (None, None));
    assert_eq!((waiting.bid, waiting.offer), (None, None));

    let trading = book.opening(0, 1_000, 2, 115_000).unwrap();
    assert_eq!(
        (trading.state, trading.reference),
        (State::Trading, Some(115_000))
    );
    let bands = trading.bands.unwrap();
    assert!(bands.contain(92_000) && bands.contain(138_000));
    assert!(!bands.contain(91_999) && !bands.contain(138_001));

    let limit = book.quote(0, 2_000, 5, 138_000, 138_001).unwrap();
    let (bid, offer) = (limit.bid.unwrap(), limit.offer.unwrap());
    assert_eq!(limit.state, State::Limit);
    assert_eq!((bid.price, bid.flag), (138_000, Flag::Limit));
    assert_eq!((offer.price, offer.flag), (138_001, Flag::NonExecutable));
}

#[test]
fn settling_gives_each_moment_its_own_time() {
    let mut book = trading();
    book.quote(0, 4_000, 7, 138_000, 0).unwrap();
    assert_eq!(number(book.trade(0, 19_000, 115_000)), Number::Unsettled);
    let notice = book.settle(0, 600_000).unwrap();
    assert_eq!((notice.mark, notice.time), (Mark::X, 19_000));
    assert_eq!(notice.mark.letter(), 'x');
    assert_eq!(
        (notice.answer.state, notice.answer.bands),
        (State::Paused, None)
    );

    let mut marks = String::new();
    let last = book.settle_all(0, 1_000_000, |notice| marks.push(notice.mark.letter()));
    assert_eq!(last.unwrap().state, State::Paused);
    // The bid still stands at the band when the pause ends, and leads to the next pause.
    assert_eq!(marks, "hvpxhw");
    let refusal = book.settle(0, 1_000_000).unwrap_err();
    assert_eq!(refusal.number, Number::NothingDue);
    assert_eq!(refusal.answer, last.ok());
}

#[test]
fn refusals_change_nothing() {
    let mut book = trading();
    let before = book.clone();
    let stands = book.read(0).unwrap();
    let refusals = [
        (book.trade(2, 3_000, 115_000), Number::NoStock),
        (book.trade(0, 3_000, 0), Number::OutOfRange),
        (book.trade(0, 1_999, 115_000), Number::BeforeClock),
        (book.trade(0, 31_000, 115_000), Number::Unsettled),
        (book.pause(0, 3_000, 5), Number::NotPrimary),
        (book.opening(0, 3_000, 2, 115_000), Number::WrongState),
        (book.reopening(0, 3_000, 2, 115_000), Number::WrongState),
        (book.closing(0, 3_000, 2, 115_000), Number::WrongState),
        (book.trade(0, 3_000, 138_001), Number::OutsideBands),
        (book.quote(0, 3_000, 16, 0, 0), Number::OutOfRange),
        (
            book.settle(0, 30_999).map(|notice| notice.answer),
            Number::NothingDue,
        ),
    ];
    for (refused, number) in refusals {
        let refusal = refused.unwrap_err();
        assert_eq!(refusal.number, number);
        assert_eq!(refusal.to_string(), number.to_string());
        let stock = (number != Number::NoStock).then_some(stands);
        assert_eq!(refusal.answer, stock, "{number}");
    }
    assert_eq!(book, before);
}

#[test]
fn an_opening_that_is_refused_says_why() {
    let mut book = book();
    assert!(book.clone().opening(0, 299_999, 2, 115_000).is_ok());
    book.settle_all(0, 300_000, |_| ()).unwrap();
    let before = book.clone();
    let other = book.opening(0, 300_000, 5, 115_000);
    assert_eq!(number(other), Number::NotPrimary);
    let refusal = book.opening(0, 300_000, 2, 115_000).unwrap_err();
    assert_eq!(refusal.number, Number::TooLate);
    assert_eq!(refusal.to_string(), "the opening came too late");
    assert_eq!(refusal.answer, before.read(0).ok());
    assert_eq!(book, before);

    // Once a trade has started the stock, its state is the reason.
    book.trade(0, 300_000, 115_000).unwrap();
    let started = book.opening(0, 300_000, 2, 115_000);
    assert_eq!(number(started), Number::WrongState);
}

#[test]
fn a_pause_that_is_refused_says_why() {
    let mut book = trading();
    assert!(book.clone().pause(0, 3_000, 2).is_ok());
    book.quote(0, 3_000, 5, 114_900, 138_000).unwrap();
    let before = book.clone();
    assert_eq!(number(book.pause(0, 3_000, 5)), Number::NotPrimary);
    let refusal = book.pause(0, 3_000, 2).unwrap_err();
    assert_eq!(refusal.number, Number::NoStraddle);
    assert_eq!(
        refusal.to_string(),
        "a pause while no best quote is outside the bands"
    );
    assert_eq!(refusal.answer, before.read(0).ok());
    assert_eq!(book, before);

    // In a limit state the state is the reason, even if a best quote is outside the bands.
    let limit = book.quote(0, 4_000, 5, 138_000, 138_001).unwrap();
    assert_eq!(limit.state, State::Limit);
    assert_eq!(limit.offer.unwrap().flag, Flag::NonExecutable);
    assert_eq!(number(book.pause(0, 4_000, 2)), Number::WrongState);
}

#[test]
fn a_clone_is_a_snapshot() {
    let mut book = trading();
    let snapshot = book.clone();
    let play = |book: &mut Book| (book.trade(0, 3_000, 116_000), book.pause(0, 4_000, 2));
    let first = play(&mut book);
    assert_eq!(first.0.unwrap().state, State::Trading);
    assert_eq!(first.1.unwrap().state, State::Paused);
    assert_ne!(book, snapshot);
    assert_eq!(snapshot, trading());

    let mut again = snapshot.clone();
    assert_eq!(play(&mut again), first);
    assert_eq!(again, book);

    let (records, times, prices) = again.into_parts();
    assert_eq!(Book::from_parts(records, times, prices), Ok(book));
}

#[test]
fn a_wrong_setup_makes_no_book() {
    for (end, setup) in [
        (3_599_999, SETUP),
        (23_400_001, SETUP),
        (END, Setup::new(3, 1, 2, 115_000)),
        (END, Setup::new(1, 2, 2, 115_000)),
        (END, Setup::new(2, 1, 16, 115_000)),
        (END, Setup::new(2, 1, 2, 0)),
    ] {
        assert_eq!(no_book(end, &[SETUP, setup]), Number::BadSetup);
    }
    assert_eq!(no_book(END, &[]), Number::Rubbish);
    assert_eq!(no_book(END, &[SETUP; MOST_STOCKS + 1]), Number::Rubbish);
}

#[test]
fn a_book_is_set_up_again_where_it_stands() {
    let mut book = trading();
    let before = book.clone();
    assert_eq!(number(book.set_up(0, &[SETUP; 2])), Number::BadSetup);
    assert_eq!(number(book.set_up(END, &[SETUP; 3])), Number::Rubbish);
    assert_eq!(book, before);

    let place = book.records().as_ptr();
    let setup = Setup::new(1, 1, 15, 31_000);
    assert_eq!(book.set_up(3_600_000, &[SETUP, setup]), Ok(()));
    assert_eq!(Ok(book.clone()), Book::new(3_600_000, &[SETUP, setup]));
    assert_eq!(place, book.records().as_ptr());
}

#[test]
fn sixty_four_stocks_are_apart() {
    let mut book = Book::new(END, &[SETUP; MOST_STOCKS]).unwrap();
    assert_eq!(book.stocks(), MOST_STOCKS);
    for stock in 0..MOST_STOCKS as u32 {
        let before = book.clone();
        book.opening(stock, 1_000 + stock, 2, 100_000 + stock)
            .unwrap();
        for other in (0..MOST_STOCKS).filter(|&other| other != stock as usize) {
            let places = other * PLACES..(other + 1) * PLACES;
            assert_eq!(book.records()[other], before.records()[other]);
            assert_eq!(book.times()[places.clone()], before.times()[places.clone()]);
            assert_eq!(book.prices()[places.clone()], before.prices()[places]);
        }
    }
    for stock in 0..MOST_STOCKS {
        assert_eq!(book.times()[stock * PLACES], 1_000 + stock as u32);
        assert_eq!(book.prices()[stock * PLACES], 100_000 + stock as u32);
        assert_eq!(
            book.read(stock as u32).unwrap().reference,
            Some(100_000 + stock as u32)
        );
    }
    assert_eq!(number(book.read(MOST_STOCKS as u32)), Number::NoStock);
}

#[test]
fn a_stock_is_copied_from_another_book() {
    let mut book = trading();
    let mut rebuilt = Book::new(END, &[SETUP]).unwrap();
    rebuilt.opening(0, 5_000, 2, 120_000).unwrap();
    let stands = book.read(0);
    assert_eq!(book.copy_stock(1, &rebuilt, 0), Ok(()));
    assert_eq!((book.read(0), book.read(1)), (stands, rebuilt.read(0)));
    assert_eq!(book.times()[PLACES..], rebuilt.times()[..]);
    assert_eq!(book.prices()[PLACES..], rebuilt.prices()[..]);

    let before = book.clone();
    assert_eq!(number(book.copy_stock(2, &rebuilt, 0)), Number::NoStock);
    assert_eq!(number(book.copy_stock(0, &rebuilt, 1)), Number::NoStock);
    assert_eq!(
        number(book.copy_stock(u32::MAX, &rebuilt, 0)),
        Number::NoStock
    );
    let (records, times, mut prices) = rebuilt.into_parts();
    prices.pop();
    let short = Book::from_parts(records, times, prices).unwrap();
    assert_eq!(number(book.copy_stock(0, &short, 0)), Number::Rubbish);
    assert_eq!(book, before);
}

#[test]
fn rubbish_is_answered() {
    let (mut records, times, prices) = trading().into_parts();
    records[0].state = 6;
    let mut book = Book::from_parts(records.clone(), times.clone(), prices.clone()).unwrap();
    let before = book.clone();
    assert_eq!(number(book.trade(0, 3_000, 115_000)), Number::Rubbish);
    let settled = book.settle_all(0, 3_000, |_| panic!("a moment of rubbish"));
    assert_eq!(number(settled), Number::Rubbish);
    assert!(book.read(1).is_ok());
    assert_eq!(book, before);

    let short = Book::from_parts(records, times[1..].to_vec(), prices).unwrap();
    assert_eq!(number(short.read(1)), Number::Rubbish);
    let nothing = Book::from_parts(Vec::new(), Vec::new(), Vec::new()).unwrap();
    assert_eq!(number(nothing.read(0)), Number::Rubbish);
}

/// The record has the reference exactly, as a sum and a count; the answer has it rounded.
#[test]
fn a_record_has_the_sum_and_the_count_of_the_reference() {
    let mut book = book();
    for price in [115_000, 115_001, 115_000, 115_001] {
        book.trade(0, 1_000, price).unwrap();
    }
    let first = book.settle(0, 300_000).unwrap();
    assert_eq!(
        (first.mark, first.answer.reference),
        (Mark::F, Some(115_001))
    );
    let record = book.records()[0];
    assert_eq!((record.reference_sum, record.reference_count), (460_002, 4));
    assert_eq!(record.trades, 4);

    let (records, times, prices) = book.into_parts();
    for (sum, count) in [
        (460_002, 513),
        (3, 4),
        (1 << 32, 4),
        (460_002, 4 + (1 << 32)),
    ] {
        let mut records = records.clone();
        records[0].reference_sum = sum;
        records[0].reference_count = count;
        let book = Book::from_parts(records, times.clone(), prices.clone()).unwrap();
        assert_eq!(number(book.read(0)), Number::Rubbish, "{sum} {count}");
    }
}

#[test]
fn what_comes_next_is_what_settling_does() {
    let mut book = trading();
    let mut done = 0;
    while let Some(next) = book.next(0).unwrap() {
        let before = book.clone();
        let early = book.settle(0, next.time - 1);
        assert_eq!(number(early), Number::NothingDue);
        assert_eq!(book, before);
        let notice = book.settle(0, END + 300_000).unwrap();
        assert_eq!((notice.mark, notice.time), (next.mark, next.time));
        done += 1;
    }
    assert!(done >= 5, "z, w twice, v and h at least: {done}");
    assert_eq!(book.read(0).unwrap().state, State::Closed);
    assert_eq!(number(book.next(2)), Number::NoStock);
    let nothing = Book::from_parts(Vec::new(), Vec::new(), Vec::new()).unwrap();
    assert_eq!(number(nothing.next(0)), Number::Rubbish);
}

/// The six times, in the order of the states' numbers.
fn six(spent: StateTimes) -> [u32; 6] {
    [
        spent.waiting,
        spent.trading,
        spent.limit,
        spent.paused,
        spent.late_pause,
        spent.closed,
    ]
}

/// Checks the totals of stock 0: the six times, the limit states and pauses, and the highest and lowest trade.
#[track_caller]
fn check_totals(book: &Book, spent: [u32; 6], counts: [u32; 2], prices: [Option<u32>; 2]) {
    let totals = book.totals(0).unwrap();
    assert_eq!(six(totals.spent), spent);
    assert_eq!([totals.limit_states, totals.pauses], counts);
    assert_eq!([totals.highest, totals.lowest], prices);
    assert_eq!(spent.iter().sum::<u32>(), book.records()[0].clock);
}

/// Document 01's day: the stock waits to 1,000, trades to 4,000, is at a limit to 19,000, and pauses to 319,000.
#[test]
fn the_outlines_day_has_these_totals() {
    let mut book = book();
    check_totals(&book, [0; 6], [0, 0], [None, None]);
    book.opening(0, 1_000, 2, 115_000).unwrap();
    book.quote(0, 2_000, 5, 114_900, 115_100).unwrap();
    book.quote(0, 3_000, 7, 0, 92_000).unwrap();
    check_totals(&book, [1_000, 2_000, 0, 0, 0, 0], [0, 0], [None, None]);
    book.quote(0, 4_000, 5, 0, 115_100).unwrap();
    check_totals(&book, [1_000, 3_000, 0, 0, 0, 0], [1, 0], [None, None]);
    let traded = [Some(92_000); 2];
    book.trade(0, 5_000, 92_000).unwrap();
    check_totals(&book, [1_000, 3_000, 1_000, 0, 0, 0], [1, 0], traded);
    let notice = book.settle(0, 319_000).unwrap();
    assert_eq!((notice.mark, notice.time), (Mark::X, 19_000));
    check_totals(&book, [1_000, 3_000, 15_000, 0, 0, 0], [1, 1], traded);
    book.settle_all(0, 319_000, |_| ()).unwrap();
    let paused = [1_000, 3_000, 15_000, 286_000, 0, 0];
    check_totals(&book, paused, [1, 1], traded);
    book.reopening(0, 319_000, 2, 95_000).unwrap();
    let reopened = [1_000, 3_000, 15_000, 300_000, 0, 0];
    check_totals(&book, reopened, [1, 1], traded);
    assert!(book.trade(0, 319_500, 120_000).is_err());
    check_totals(&book, reopened, [1, 1], traded);
    assert_eq!(book.totals(1), Book::new(END, &[SETUP]).unwrap().totals(0));
}

/// A quote that ends a limit state and begins the next counts one more, and a late pause counts as a pause.
#[test]
fn totals_count_every_limit_state_and_pause() {
    let mut book = trading();
    book.trade(0, 2_000, 130_000).unwrap();
    book.trade(0, 2_500, 122_500).unwrap();
    let prices = [Some(130_000), Some(122_500)];
    book.quote(0, 3_000, 5, 138_000, 0).unwrap();
    check_totals(&book, [1_000, 2_000, 0, 0, 0, 0], [1, 0], prices);
    // The mean of the opening and the trades becomes the reference, and the offer is at the new lower band.
    let again = book.quote(0, 4_000, 5, 0, 98_000).unwrap();
    assert_eq!(
        (again.state, again.reference),
        (State::Limit, Some(122_500))
    );
    check_totals(&book, [1_000, 2_000, 1_000, 0, 0, 0], [2, 0], prices);
    book.quote(0, 5_000, 5, 0, 147_001).unwrap();
    book.pause(0, 6_000, 2).unwrap();
    check_totals(&book, [1_000, 3_000, 2_000, 0, 0, 0], [2, 1], prices);
    book.settle_all(0, END - 600_000, |_| ()).unwrap();
    book.pause(0, END - 600_000, 2).unwrap();
    let spent = [1_000, 22_197_000, 2_000, 600_000, 0, 0];
    check_totals(&book, spent, [2, 2], prices);
    book.settle_all(0, END + 300_000, |_| ()).unwrap();
    assert_eq!(book.read(0).unwrap().state, State::Closed);
    let closed = [1_000, 22_197_000, 2_000, 600_000, 900_000, 0];
    check_totals(&book, closed, [2, 2], prices);
}

/// Prices that are no trades do not count, and counts stop at the highest number.
#[test]
fn totals_are_kept_in_the_record() {
    let (mut records, times, prices) = trading().into_parts();
    records[0].totals.limit_states = u32::MAX;
    records[0].totals.pauses = u32::MAX;
    // A lowest above the highest is no rubbish.
    records[0].totals.lowest = 999_999_999;
    let mut book = Book::from_parts(records, times, prices).unwrap();
    let most = [u32::MAX; 2];
    let stands = [None, Some(999_999_999)];
    check_totals(&book, [1_000, 1_000, 0, 0, 0, 0], most, stands);
    book.pause(0, 3_000, 2).unwrap();
    check_totals(&book, [1_000, 2_000, 0, 0, 0, 0], most, stands);
    book.settle_all(0, 303_000, |_| ()).unwrap();
    book.reopening(0, 303_000, 2, 115_000).unwrap();
    check_totals(&book, [1_000, 2_000, 0, 300_000, 0, 0], most, stands);
    book.trade(0, 303_000, 116_000).unwrap();
    book.quote(0, 303_000, 5, 138_000, 0).unwrap();
    let traded = [Some(116_000); 2];
    check_totals(&book, [1_000, 2_000, 0, 300_000, 0, 0], most, traded);
}

#[test]
fn totals_that_are_refused_say_why() {
    let (records, times, prices) = trading().into_parts();
    let with = |change: fn(&mut raw::DayTotals)| {
        let mut records = records.clone();
        change(&mut records[0].totals);
        Book::from_parts(records, times.clone(), prices.clone()).unwrap()
    };
    let rubbish: [fn(&mut raw::DayTotals); 5] = [
        |totals| totals.spent.closed = 1,
        |totals| totals.spent.waiting = 0,
        // The six times are the clock only if the sum wraps.
        |totals| (totals.spent.limit, totals.spent.paused) = (u32::MAX, 1),
        |totals| totals.highest = 1_000_000_000,
        |totals| totals.lowest = 1_000_000_000,
    ];
    for change in rubbish {
        let mut book = with(change);
        let before = book.clone();
        assert_eq!(number(book.totals(0)), Number::Rubbish);
        assert_eq!(number(book.read(0)), Number::Rubbish);
        assert_eq!(number(book.trade(0, 3_000, 115_000)), Number::Rubbish);
        assert!(book.totals(1).is_ok());
        assert_eq!(book, before);
    }
    let moved = with(|totals| (totals.spent.waiting, totals.spent.closed) = (0, 1_000));
    check_totals(&moved, [0, 1_000, 0, 0, 0, 1_000], [0, 0], [None, None]);
    assert_eq!(number(with(|_| ()).totals(2)), Number::NoStock);
    let short = Book::from_parts(records, times[1..].to_vec(), prices).unwrap();
    assert_eq!(number(short.totals(2)), Number::Rubbish);
}

#[test]
fn every_number_has_a_name() {
    for number in (0..1_000).chain([u32::MAX - 1, u32::MAX]) {
        assert_eq!(Number::from(number).raw(), number);
        assert_eq!(State::from(number).raw(), number);
        assert_eq!(Flag::from(number).raw(), number);
        assert_eq!(Mark::from(number).raw(), number);
    }
    assert_eq!(State::from(6), State::Unknown(6));
    assert_eq!(Mark::from(u32::MAX).letter(), '?');
    assert_eq!(u32::from(Flag::NonExecutable), 2);
}

#[test]
fn every_name_is_displayed() {
    let words = |from: fn(u32) -> String, numbers: &[u32]| -> Vec<String> {
        numbers.iter().map(|&number| from(number)).collect()
    };
    let states = words(|n| State::from(n).to_string(), &[0, 1, 2, 3, 4, 5, 6]);
    assert_eq!(
        states.join(", "),
        "Waiting, Trading, Limit, Paused, Late pause, Closed, 6"
    );
    let flags = words(|n| Flag::from(n).to_string(), &[0, 1, 2, 3, 4]);
    assert_eq!(flags.join(", "), "absent, plain, non-executable, limit, 4");
    for letter in "zwxpcvfh".chars() {
        assert_eq!(Mark::from(letter as u32).to_string(), letter.to_string());
    }
    assert_eq!(Mark::from(0).to_string(), "none");
    assert_eq!(Number::from(3).to_string(), "there is no such stock");
    assert_eq!(
        format!("{:>5}|{:<7}|", Number::from(999), Flag::Plain),
        "  999|plain  |"
    );
}

#[test]
fn an_answer_of_a_later_version_is_read() {
    let mut raw = raw::Notice::default();
    raw.answer.state = 6;
    raw.answer.offer = 5;
    raw.answer.offer_flag = 9;
    raw.mark = u32::MAX;
    let notice = Notice::try_from(raw).unwrap();
    assert_eq!(Answer::try_from(raw.answer), Ok(notice.answer));
    assert_eq!(notice.answer.state, State::Unknown(6));
    assert_eq!(notice.answer.offer.unwrap().flag, Flag::Unknown(9));
    assert_eq!(notice.mark, Mark::Unknown(u32::MAX));

    // An unknown number may be about no stock, so there is no answer.
    raw.answer.number = u32::MAX;
    let refusal = Notice::try_from(raw).unwrap_err();
    assert_eq!(refusal.number, Number::Unknown(u32::MAX));
    assert_eq!(refusal.answer, None);
}

#[test]
fn a_book_may_be_sent_and_read_by_several() {
    let book = trading();
    let wanted = book.read(0);
    std::thread::scope(|scope| {
        for _ in 0..2 {
            scope.spawn(|| assert_eq!(book.read(0), wanted));
        }
    });
    let moved = std::thread::spawn(move || book.read(0));
    assert_eq!(moved.join().unwrap(), wanted);
}

#[test]
fn participants_are_sixteen() {
    let mut book = trading();
    for participant in 0..PARTICIPANTS as u32 {
        book.quote(0, 3_000, participant, 100_000 + participant, 0)
            .unwrap();
    }
    assert_eq!(book.read(0).unwrap().bid.unwrap().price, 100_015);
    assert_eq!(
        number(book.quote(0, 3_000, PARTICIPANTS as u32, 0, 0)),
        Number::OutOfRange
    );
}
