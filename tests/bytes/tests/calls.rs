//! Document 01's day on bytes, setup, refusals that change no byte, and a few rubbish records.

use bytes::field::*;
use bytes::{play, Call, Given, Lent, PLACES, WORDS};
use second::{Letter, Message};

const END: u32 = 23_400_000;
const SETUP: [u32; 4] = [2, 1, 2, 115_000];

#[derive(Clone, Debug, PartialEq)]
struct Book {
    records: Vec<[u32; WORDS]>,
    times: Vec<u32>,
    prices: Vec<u32>,
}

impl Book {
    /// A book of this many stocks, with this number in every word.
    fn filled(stocks: usize, number: u32) -> Book {
        Book {
            records: vec![[number; WORDS]; stocks],
            times: vec![number; PLACES * stocks],
            prices: vec![number; PLACES * stocks],
        }
    }

    /// One stock of document 01's day, just set up.
    fn started() -> Book {
        let mut book = Book::filled(1, 9);
        assert_eq!(book.set_up(END, &SETUP), 0);
        book
    }

    fn play(&mut self, call: &Call) -> Given {
        let mut lent = Lent {
            records: &mut self.records,
            times: &mut self.times,
            prices: &mut self.prices,
        };
        play(&mut lent, call)
    }

    fn set_up(&mut self, end: u32, setups: &[u32]) -> u32 {
        let setups = setups.to_vec();
        self.play(&Call::Setup { end, setups }).answer.number
    }

    fn tell(&mut self, letter: Letter, time: u32, rest: [u32; 3]) -> Given {
        self.play(&message(letter, time, rest))
    }

    fn settle(&mut self, time: u32) -> Given {
        self.play(&Call::Settle { stock: 0, time })
    }

    /// The sum and the count of stock 0's reference.
    fn reference(&self) -> (u64, u64) {
        let record = &self.records[0];
        (wide(record, REFERENCE_SUM), wide(record, REFERENCE_COUNT))
    }

    /// Settles to this time and then tells the message.
    fn settle_and_tell(&mut self, letter: Letter, time: u32, rest: [u32; 3]) -> Given {
        while self.settle(time).answer.number == 0 {}
        self.tell(letter, time, rest)
    }
}

/// A message on stock 0: T price, Q participant bid offer, P participant, others participant price.
fn message(letter: Letter, time: u32, rest: [u32; 3]) -> Call {
    let price = match letter {
        Letter::T => rest[0],
        _ => rest[1],
    };
    Call::Tell(Message {
        letter,
        stock: 0,
        time,
        participant: rest[0],
        price,
        bid: rest[1],
        offer: rest[2],
    })
}

/// What document 01's day prints: mark or letter, time, and the nine numbers of the answer.
fn line(mark: u32, time: u32, given: &Given) -> String {
    let a = &given.answer;
    let numbers = [
        a.number,
        a.state,
        a.reference,
        a.lower,
        a.upper,
        a.bid,
        a.bid_flag,
        a.offer,
        a.offer_flag,
    ];
    let numbers = numbers.map(|number| number.to_string()).join(" ");
    let mark = char::from_u32(mark).unwrap();
    format!("0 {time} {mark} {numbers}")
}

const DAY: [(Letter, u32, [u32; 3]); 7] = [
    (Letter::O, 1_000, [2, 115_000, 0]),
    (Letter::Q, 2_000, [5, 114_900, 115_100]),
    (Letter::Q, 3_000, [7, 0, 92_000]),
    (Letter::Q, 4_000, [5, 0, 115_100]),
    (Letter::T, 5_000, [92_000, 0, 0]),
    (Letter::R, 319_000, [2, 95_000, 0]),
    (Letter::T, 319_500, [120_000, 0, 0]),
];

const PRINTED: [&str; 11] = [
    "0 1000 O 0 1 115000 92000 138000 0 0 0 0",
    "0 2000 Q 0 1 115000 92000 138000 114900 1 115100 1",
    "0 3000 Q 0 1 115000 92000 138000 114900 1 92000 3",
    "0 4000 Q 0 2 115000 92000 138000 0 0 92000 3",
    "0 5000 T 0 2 115000 92000 138000 0 0 92000 3",
    "0 19000 x 0 3 115000 0 0 0 0 92000 1",
    "0 31000 h 0 3 115000 0 0 0 0 92000 1",
    "0 301000 v 0 3 115000 0 0 0 0 92000 1",
    "0 305000 v 0 3 115000 0 0 0 0 92000 1",
    "0 319000 R 0 1 95000 76000 114000 0 0 92000 1",
    "0 319500 T 12 1 95000 76000 114000 0 0 92000 1",
];

#[test]
fn the_day_of_document_01() {
    let mut book = Book::started();
    let mut printed = Vec::new();
    for (letter, time, rest) in DAY {
        loop {
            let given = book.settle(time);
            if given.answer.number != 0 {
                break;
            }
            printed.push(line(given.mark, given.time, &given));
        }
        let given = book.tell(letter, time, rest);
        printed.push(line(u32::from(letter.byte()), time, &given));
    }
    assert_eq!(printed, PRINTED);
    let mut record = [0; WORDS];
    record[..BIDS].copy_from_slice(&[
        2, 1, 2, 115_000, END, 1, 319_000, 1, 4_000, 19_000, 95_000, 0, 1, 0, 319_000, 1,
    ]);
    record[OFFERS + 5] = 115_100;
    record[OFFERS + 7] = 92_000;
    record[COUNT] = 1;
    record[SPENT..].copy_from_slice(&[1_000, 3_000, 15_000, 300_000, 0, 0, 1, 1, 92_000, 92_000]);
    let mut after = Book::filled(1, 0);
    after.records[0] = record;
    after.times[0] = 319_000;
    after.prices[0] = 95_000;
    assert_eq!(book, after);
}

#[test]
fn setup_writes_every_byte() {
    let mut book = Book::filled(2, u32::MAX);
    assert_eq!(book.set_up(END, &[2, 3, 15, 1, 1, 1, 0, 999_999_999]), 0);
    let mut after = Book::filled(2, 0);
    after.records[0][..ENTRY].copy_from_slice(&[2, 3, 15, 1, END, 0, 0, 1]);
    after.records[1][..ENTRY].copy_from_slice(&[1, 1, 0, 999_999_999, END, 0, 0, 1]);
    assert_eq!(book, after);
}

#[test]
fn setup_looks_at_shape_and_then_at_ranges() {
    for (stocks, end, setups, number) in [
        (0, END, [].as_slice(), 1),
        (65, END, &SETUP.repeat(65), 1),
        (64, END, &SETUP.repeat(64), 0),
        (1, 0, &SETUP[..3], 1),
        (1, 0, &SETUP.repeat(2), 1),
        (1, 3_599_999, &SETUP, 2),
        (1, 23_400_001, &SETUP, 2),
        (1, END, &[1, 2, 0, 1], 2),
    ] {
        let mut book = Book::filled(stocks, 7);
        let before = book.clone();
        assert_eq!(book.set_up(end, setups), number);
        assert_eq!(number == 0, book != before);
    }
}

#[test]
fn arrays_of_another_length_are_refused() {
    let read = Call::Read { stock: u32::MAX };
    for length in [0, PLACES - 1, PLACES + 1, 2 * PLACES] {
        let mut book = Book::started();
        book.times.resize(length, 0);
        assert_eq!(book.play(&read).answer.number, 1);
        book.times.resize(PLACES, 0);
        assert_eq!(book.play(&read).answer.number, 3);
        book.prices.resize(length, 0);
        assert_eq!(book.set_up(END, &SETUP), 1);
    }
}

#[test]
fn a_refusal_leaves_all_bytes() {
    let mut book = Book::started();
    book.settle_and_tell(Letter::O, 1_000, [2, 115_000, 0]);
    book.records[0][EARLY] = 7;
    book.times[300] = 5;
    let before = book.clone();
    for (letter, time, rest, number) in [
        (Letter::Q, 2_000, [16, 0, 0], 4),
        (Letter::Q, 999, [0, 0, 0], 5),
        (Letter::T, 31_000, [115_000, 0, 0], 6),
        (Letter::P, 2_000, [3, 0, 0], 8),
        (Letter::O, 2_000, [2, 115_000, 0], 9),
        (Letter::P, 2_000, [2, 0, 0], 16),
        (Letter::T, 2_000, [91_999, 0, 0], 12),
    ] {
        assert_eq!(book.tell(letter, time, rest).answer.number, number);
        assert_eq!(book, before);
    }
    assert_eq!(book.settle(30_999).answer.number, 14);
    assert_eq!(book.play(&Call::Read { stock: 1 }).answer.number, 3);
    assert_eq!(book.play(&Call::Read { stock: 0 }).answer.number, 0);
    assert_eq!(book.play(&Call::Next { stock: 1 }).answer.number, 3);
    let next = book.play(&Call::Next { stock: 0 });
    assert_eq!((next.mark, next.time), (u32::from(b'h'), 31_000));
    assert_eq!(book, before);
}

/// An opening is too late by its own time, also where f is no longer to come and the clock is earlier.
#[test]
fn a_late_opening_leaves_all_bytes() {
    let mut book = Book::started();
    book.records[0][EARLY] = 0;
    let before = book.clone();
    for (participant, time, number) in [(2, 300_000, 15), (2, 300_001, 15), (3, 300_000, 8)] {
        let given = book.tell(Letter::O, time, [participant, 115_000, 0]);
        assert_eq!(given.answer.number, number);
        assert_eq!(book, before);
    }
    let given = book.tell(Letter::O, 299_999, [2, 115_000, 0]);
    assert_eq!(given.answer.number, 0);
}

/// A Trading stock with three trades, markers other than 0 and 1, and unused places that are not 0.
fn odd() -> Book {
    let mut book = Book::started();
    book.settle_and_tell(Letter::O, 1_000, [2, 115_000, 0]);
    book.tell(Letter::T, 1_000, [115_000, 0, 0]);
    book.tell(Letter::T, 2_000, [115_000, 0, 0]);
    book.records[0][EARLY] = 7;
    book.records[0][HOLD] = 8;
    book.times[3..].fill(6);
    book.prices[3..].fill(5);
    book
}

/// Puts a number into a word of stock 0's record. The six times go with the clock, as if all of it had been spent in Waiting.
fn put(book: &mut Book, word: usize, number: u32) {
    let record = &mut book.records[0];
    record[word] = number;
    if word == CLOCK {
        record[SPENT..LIMIT_STATES].copy_from_slice(&[number, 0, 0, 0, 0, 0]);
    }
}

#[test]
fn freed_places_become_0_and_other_unused_ones_stay() {
    let mut book = odd();
    while book.settle(301_000).answer.number == 0 {}
    assert_eq!(book.times[..4], [2_000, 0, 0, 6]);
    assert_eq!(book.prices[..4], [115_000, 0, 0, 5]);
    assert_eq!(book.records[0][COUNT], 1);
    book.tell(Letter::T, 301_500, [115_000, 0, 0]);
    assert_eq!(book.times[..4], [2_000, 301_500, 0, 6]);
    while book.settle(END).answer.number == 0 {}
    assert_eq!(book.times[..4], [0, 0, 0, 6]);
    assert_eq!(book.prices[..4], [0, 0, 0, 5]);
    assert_eq!(book.records[0][STATE], 5);
}

#[test]
fn markers_stay_until_they_are_written() {
    let mut book = odd();
    book.tell(Letter::Q, 2_500, [0, 0, 138_000]);
    assert_eq!(book.records[0][EARLY], 7);
    assert_eq!(book.records[0][HOLD], 8);
    book.settle(31_000);
    assert_eq!(book.records[0][HOLD], 0);
    assert_eq!(book.records[0][EARLY], 7);

    let mut book = Book::started();
    book.records[0][EARLY] = 7;
    book.records[0][HOLD] = 8;
    book.settle(300_000);
    assert_eq!(book.records[0][EARLY], 0);
    assert_eq!(book.records[0][HOLD], 8);
    book.tell(Letter::T, 300_000, [115_000, 0, 0]);
    assert_eq!(book.records[0][HOLD], 1);
}

/// With the same dates and another reference Limit ends and begins again in one millisecond.
#[test]
fn a_start_in_the_same_millisecond_is_seen() {
    let mut book = odd();
    book.tell(Letter::Q, 2_000, [5, 138_000, 0]);
    book.records[0][START] = 2_000;
    assert_eq!(book.records[0][STATE], 2);
    book.prices[..3].fill(120_000);
    let mut stays = book.clone();
    stays.tell(Letter::Q, 2_000, [6, 0, 144_000]);
    assert_eq!(stays.records[0][HOLD], 8);
    book.tell(Letter::Q, 2_000, [5, 0, 96_000]);
    assert_eq!(book.reference(), (360_000, 3));
    assert_eq!(book.records[0][ENTRY], 2_000);
    assert_eq!(book.records[0][STATE], 2);
    assert_eq!(book.records[0][HOLD], 1);
}

/// The reference is the window's own sum and count, and not reduced: 4 trades of 115,000 stay 460,000 and 4.
#[test]
fn the_reference_is_the_sum_and_the_count() {
    let mut book = Book::started();
    for price in [115_000; 4] {
        book.tell(Letter::T, 1_000, [price, 0, 0]);
    }
    assert_eq!(book.reference(), (0, 0));
    assert_eq!(book.settle(300_000).answer.reference, 115_000);
    assert_eq!(book.reference(), (460_000, 4));
    assert_eq!(book.records[0][HOLD], 1);
    while book.settle(400_000).answer.number == 0 {}
    assert_eq!(book.reference(), (460_000, 4));

    // 115,000 x 1.01 is 116,150. A mean of 116,149.5 would be printed as that and stays below it.
    let first = book.tell(Letter::T, 400_000, [115_001, 0, 0]);
    assert_eq!(first.answer.number, 0);
    let mut stays = book.clone();
    stays.tell(Letter::T, 400_000, [117_298, 0, 0]);
    assert_eq!(stays.reference(), (460_000, 4));
    let given = book.tell(Letter::T, 400_000, [117_300, 0, 0]);
    assert_eq!(given.answer.reference, 116_151);
    assert_eq!(book.reference(), (232_301, 2));
}

/// Leaving Limit without a trade keeps a sum that its count does not divide.
#[test]
fn a_limit_without_a_trade_keeps_sum_and_count() {
    let mut book = odd();
    set_wide(&mut book.records[0], REFERENCE_SUM, 345_001);
    set_wide(&mut book.records[0], REFERENCE_COUNT, 3);
    set_wide(&mut book.records[0], COUNT, 0);
    let given = book.tell(Letter::Q, 3_000, [5, 138_000, 0]);
    assert_eq!((given.answer.state, given.answer.reference), (2, 115_000));
    let given = book.tell(Letter::Q, 4_000, [5, 0, 0]);
    assert_eq!((given.answer.state, given.answer.reference), (1, 115_000));
    assert_eq!(book.reference(), (345_001, 3));
    assert_eq!(book.records[0][START], 4_000);
}

/// The highest sum that 512 prices can have needs more than 32 bits, and so does the sum of a full window.
#[test]
fn sums_over_32_bits_are_kept() {
    let mut book = Book::started();
    assert_eq!(book.set_up(END, &[2, 1, 2, 999_999_999]), 0);
    for _ in 0..PLACES {
        let given = book.tell(Letter::T, 1_000, [999_999_999, 0, 0]);
        assert_eq!(given.answer.number, 0);
    }
    assert_eq!(book.settle(300_000).answer.reference, 999_999_999);
    assert_eq!(book.reference(), (511_999_999_488, 512));
    assert_eq!(wide(&book.records[0], COUNT), 512);
    let read = Call::Read { stock: 0 };
    assert_eq!(book.play(&read).answer.number, 0);
    set_wide(&mut book.records[0], REFERENCE_SUM, 511_999_999_489);
    assert_eq!(book.play(&read).answer.number, 1);
}

/// Sum and count at the edges of their ranges, in a state that needs a reference and in one that does not.
#[test]
fn sum_and_count_have_a_range() {
    const MOST: u64 = 999_999_999;
    for (sum, count, trading, closed) in [
        (0, 0, 1, 0),
        (1, 0, 1, 1),
        (u64::MAX, 0, 1, 1),
        (0, 1, 1, 1),
        (1, 1, 0, 0),
        (MOST, 1, 0, 0),
        (MOST + 1, 1, 1, 1),
        (1 << 32, 1, 1, 1),
        (511, 512, 1, 1),
        (512, 512, 0, 0),
        (MOST * 512, 512, 0, 0),
        (MOST * 512 + 1, 512, 1, 1),
        (513, 513, 1, 1),
        (MOST * 513, 513, 1, 1),
        (1 << 32, 1 << 32, 1, 1),
        (115_000, 1 + (1 << 32), 1, 1),
        (u64::MAX, u64::MAX, 1, 1),
    ] {
        for (state, number) in [(1, trading), (5, closed)] {
            let mut book = odd();
            let record = &mut book.records[0];
            record[STATE] = state;
            set_wide(record, REFERENCE_SUM, sum);
            set_wide(record, REFERENCE_COUNT, count);
            let before = book.clone();
            let given = book.play(&Call::Read { stock: 0 });
            assert_eq!(given.answer.number, number, "{sum} {count} {state}");
            assert_eq!(book, before);
        }
    }
}

#[test]
fn rubbish_is_refused() {
    for (word, number) in [
        (TIER, 3),
        (LEVERAGE, 4),
        (PRIMARY, 16),
        (CLOSE, 0),
        (STATE, 6),
        (CLOCK, 999),
        (ENTRY, END + 300_001),
        (PAUSE, u32::MAX),
        (REFERENCE_SUM, 0),
        (REFERENCE_SUM, 1_000_000_000),
        (REFERENCE_SUM + 1, 1),
        (REFERENCE_SUM + 1, 1 << 31),
        (REFERENCE_COUNT, 0),
        (REFERENCE_COUNT, 115_000),
        (REFERENCE_COUNT + 1, 1),
        (START, 0),
        (BIDS + 15, 1_000_000_000),
        (OFFERS, u32::MAX),
        (COUNT, 4),
        (COUNT, 513),
        (COUNT, u32::MAX),
        (COUNT + 1, 1),
        (COUNT + 1, u32::MAX),
    ] {
        let mut book = odd();
        put(&mut book, word, number);
        if word == START {
            put(&mut book, CLOCK, 30_001);
        }
        let before = book.clone();
        let given = book.play(&Call::Read { stock: 0 });
        assert_eq!(given.answer.number, 1, "{} {number}", name(word));
        assert_eq!(book, before);
    }
}

#[test]
fn what_is_not_rubbish_is_taken() {
    for (word, number) in [
        (EARLY, u32::MAX),
        (HOLD, u32::MAX),
        (ENTRY, END + 300_000),
        (START, 2_000),
        (CLOCK, 31_000),
        (REFERENCE_SUM, 1),
        (REFERENCE_SUM, 999_999_999),
        (REFERENCE_COUNT, 2),
        (REFERENCE_COUNT, 512),
        (COUNT, 0),
    ] {
        let mut book = odd();
        put(&mut book, word, number);
        let given = book.play(&Call::Read { stock: 0 });
        assert_eq!(given.answer.number, 0, "{} {number}", name(word));
    }
}
