//! The day totals: what each accepted call adds, what refused calls leave, and which totals are rubbish.

use bytes::field::*;
use bytes::{play, Call, Given, Lent, Totals, PLACES, WORDS};
use second::{Letter, Message};

/// The shortest session: a pause from 3,000,000 on is late.
const END: u32 = 3_600_000;
const PRIMARY_NUMBER: u32 = 2;
const TOTALS: Call = Call::Totals { stock: 0 };

/// A book of one stock with the close 115,000. With that reference its bands are 92,000 and 138,000, from 900,000 to 2,100,000 they are
/// 103,500 and 126,500.
#[derive(Clone, PartialEq)]
struct Day {
    records: Vec<[u32; WORDS]>,
    times: Vec<u32>,
    prices: Vec<u32>,
}

impl Day {
    fn new() -> Day {
        let mut day = Day {
            records: vec![[u32::MAX; WORDS]],
            times: vec![u32::MAX; PLACES],
            prices: vec![u32::MAX; PLACES],
        };
        let setups = vec![2, 1, PRIMARY_NUMBER, 115_000];
        let given = day.play(&Call::Setup { end: END, setups });
        assert_eq!(given, Given::default());
        day
    }

    /// The stock after its opening.
    fn opened() -> Day {
        let mut day = Day::new();
        assert_eq!(day.primary(Letter::O, 1_000, 115_000), 0);
        day
    }

    fn play(&mut self, call: &Call) -> Given {
        let mut lent = Lent {
            records: &mut self.records,
            times: &mut self.times,
            prices: &mut self.prices,
        };
        play(&mut lent, call)
    }

    /// Tells a message of which only its letter's fields matter, and returns the number.
    fn tell(&mut self, letter: Letter, time: u32, participant: u32, prices: [u32; 2]) -> u32 {
        let message = Message {
            letter,
            stock: 0,
            time,
            participant,
            price: prices[0],
            bid: prices[0],
            offer: prices[1],
        };
        self.play(&Call::Tell(message)).answer.number
    }

    fn trade(&mut self, time: u32, price: u32) -> u32 {
        self.tell(Letter::T, time, 0, [price, 0])
    }

    /// Quotes of participant 5.
    fn quote(&mut self, time: u32, bid: u32, offer: u32) -> u32 {
        self.tell(Letter::Q, time, 5, [bid, offer])
    }

    fn primary(&mut self, letter: Letter, time: u32, price: u32) -> u32 {
        self.tell(letter, time, PRIMARY_NUMBER, [price, 0])
    }

    /// Settles all that is due.
    fn settle(&mut self, time: u32) {
        let call = Call::Settle { stock: 0, time };
        while self.play(&call).answer.number == 0 {}
    }

    fn totals(&mut self) -> Totals {
        let given = self.play(&TOTALS);
        assert_eq!(given.answer.number, 0);
        assert_eq!(given.totals.numbers(), self.records[0][SPENT..]);
        given.totals
    }

    /// The highest and the lowest T.
    fn extremes(&mut self) -> (u32, u32) {
        let Totals {
            highest, lowest, ..
        } = self.totals();
        (highest, lowest)
    }

    fn state(&self) -> u32 {
        self.records[0][STATE]
    }
}

#[test]
fn setup_makes_every_total_0() {
    assert_eq!(Day::new().totals(), Totals::default());
}

/// The time up to a call belongs to the state that the call found.
#[test]
fn time_goes_to_the_state_before_the_call() {
    let mut day = Day::new();
    assert_eq!(day.quote(400, 0, 0), 0);
    assert_eq!(day.totals().spent, [400, 0, 0, 0, 0, 0]);
    day.primary(Letter::O, 1_000, 115_000);
    assert_eq!(day.totals().spent, [1_000, 0, 0, 0, 0, 0]);
    assert_eq!(day.quote(3_000, 138_000, 0), 0);
    assert_eq!((day.state(), day.totals().spent[1]), (2, 2_000));
    assert_eq!(day.quote(3_000, 138_000, 0), 0);
    assert_eq!(day.trade(4_000, 138_000), 0);
    assert_eq!(day.totals().spent, [1_000, 2_000, 1_000, 0, 0, 0]);
    day.settle(18_000);
    assert_eq!((day.state(), day.totals().spent[2]), (3, 15_000));
    day.settle(31_000);
    assert_eq!(day.totals().spent, [1_000, 2_000, 15_000, 13_000, 0, 0]);
    assert_eq!(day.quote(40_000, 0, 0), 0);
    day.settle(318_000);
    assert_eq!(day.primary(Letter::R, 318_500, 115_000), 0);
    assert_eq!(day.totals().spent, [1_000, 2_000, 15_000, 300_500, 0, 0]);
    day.settle(3_000_000);
    assert_eq!(day.quote(3_000_000, 90_000, 0), 0);
    assert_eq!(day.primary(Letter::P, 3_000_000, 0), 0);
    assert_eq!(day.state(), 4);
    let spent = [1_000, 2_683_500, 15_000, 300_500, 0, 0];
    assert_eq!(day.totals().spent, spent);
    assert_eq!(day.primary(Letter::X, END + 7, 1), 0);
    let spent = [1_000, 2_683_500, 15_000, 300_500, 600_007, 0];
    assert_eq!((day.state(), day.totals().spent), (5, spent));
}

/// The moments z and c close the stock: no time is ever spent in Closed.
#[test]
fn time_ends_with_the_closing() {
    let mut day = Day::opened();
    day.settle(END);
    assert_eq!(day.totals().spent, [1_000, END - 1_000, 0, 0, 0, 0]);
    let mut day = Day::opened();
    day.settle(3_100_000);
    day.quote(3_100_000, 90_000, 0);
    day.primary(Letter::P, 3_100_000, 0);
    day.settle(END + 300_000);
    assert_eq!(day.totals().spent, [1_000, 3_099_000, 0, 0, 800_000, 0]);
    assert_eq!(day.quote(END + 300_000, 0, 0), 7);
    assert_eq!(day.totals().spent[5], 0);
}

/// Limit is entered from Waiting, Trading and Paused, by messages and by moments.
#[test]
fn each_entry_into_limit_counts() {
    let mut waiting = Day::new();
    waiting.quote(500, 138_000, 0);
    let mut by_f = waiting.clone();
    waiting.primary(Letter::O, 1_000, 115_000);
    by_f.trade(1_000, 115_000);
    by_f.settle(300_000);
    let mut by_w = Day::opened();
    by_w.quote(2_000, 126_500, 0);
    by_w.settle(900_000);
    let mut by_trade = Day::opened();
    by_trade.settle(400_000);
    by_trade.quote(400_000, 0, 93_100);
    by_trade.trade(400_000, 116_375);
    for mut day in [waiting, by_f, by_w, by_trade] {
        assert_eq!((day.state(), day.totals().limit_states), (2, 1));
    }
    let mut day = Day::opened();
    for (entries, time) in [(1, 2_000), (2, 3_000), (3, 4_000)] {
        assert_eq!(day.quote(time, 138_000, 0), 0);
        assert_eq!((day.state(), day.totals().limit_states), (2, entries));
        day.quote(time + 500, 137_999, 0);
        assert_eq!((day.state(), day.totals().limit_states), (1, entries));
    }
    day.quote(5_000, 138_000, 0);
    day.settle(20_000);
    let mut by_p = day.clone();
    assert_eq!(day.primary(Letter::R, 320_000, 115_000), 6);
    day.settle(320_000);
    assert_eq!(day.primary(Letter::R, 320_000, 115_000), 0);
    by_p.settle(620_000);
    for mut day in [day, by_p] {
        assert_eq!((day.state(), day.totals().limit_states), (2, 5));
    }
}

/// The quote that ends Limit begins it afresh in the same millisecond: the trades' mean, 120,000, has the lower band 96,000.
#[test]
fn a_limit_begun_afresh_counts() {
    let mut day = Day::opened();
    assert_eq!(day.trade(1_200, 125_000), 0);
    assert_eq!(day.quote(2_000, 138_000, 0), 0);
    let mut stays = day.clone();
    assert_eq!(stays.quote(2_000, 138_000, 138_000), 0);
    assert_eq!(stays.trade(2_000, 138_000), 0);
    assert_eq!((stays.state(), stays.totals().limit_states), (2, 1));
    let mut ends = day.clone();
    assert_eq!(ends.quote(2_000, 0, 96_001), 0);
    assert_eq!((ends.state(), ends.totals().limit_states), (1, 1));
    assert_eq!(day.quote(2_000, 0, 96_000), 0);
    assert_eq!((day.state(), day.totals().limit_states), (2, 2));
}

/// With no trade in the window the reference stays; the bands are others, since k has changed during Limit.
#[test]
fn a_limit_begun_afresh_with_the_same_reference_counts() {
    let mut day = Day::opened();
    day.settle(899_000);
    assert_eq!(day.quote(899_000, 138_000, 0), 0);
    day.settle(901_000);
    assert_eq!((day.state(), day.totals().limit_states), (2, 1));
    let reference = day.records[0][REFERENCE_SUM..START].to_vec();
    assert_eq!(day.quote(901_000, 126_500, 0), 0);
    assert_eq!((day.state(), day.totals().limit_states), (2, 2));
    assert_eq!(day.records[0][REFERENCE_SUM..START], reference);
}

/// By P and by x, Paused and Late. What happens in a pause, or ends it, counts none.
#[test]
fn each_pause_counts() {
    for (late, start) in [(false, 2_999_999), (true, 3_000_000)] {
        let mut declared = Day::opened();
        declared.settle(start);
        declared.quote(start, 90_000, 0);
        assert_eq!(declared.primary(Letter::P, start, 0), 0);
        let mut limited = Day::opened();
        limited.settle(start - 15_000);
        limited.quote(start - 15_000, 138_000, 0);
        limited.settle(start);
        for mut day in [declared, limited] {
            assert_eq!(day.state(), if late { 4 } else { 3 });
            assert_eq!(day.totals().pauses, 1);
            day.settle(start + 400_000);
            assert_eq!(day.quote(start + 400_000, 0, 0), 0);
            assert_eq!(day.totals().pauses, 1);
            day.settle(END + 300_000);
            assert_eq!((day.state(), day.totals().pauses), (5, 1));
        }
    }
    let mut day = Day::opened();
    for pauses in 1..=4 {
        let start = 650_000 * pauses;
        day.settle(start);
        day.quote(start, 90_000, 0);
        assert_eq!(day.primary(Letter::P, start, 0), 0);
        assert_eq!(day.totals().pauses, pauses);
    }
}

#[test]
fn the_two_counts_stop() {
    const MOST: u32 = 4_294_967_295;
    for (before, after) in [(MOST - 2, MOST - 1), (MOST - 1, MOST), (MOST, MOST)] {
        let mut day = Day::opened();
        day.trade(1_200, 125_000);
        day.records[0][LIMIT_STATES] = before;
        day.quote(2_000, 138_000, 0);
        assert_eq!(day.totals().limit_states, after);
        day.records[0][LIMIT_STATES] = before;
        day.records[0][PAUSES] = before;
        day.quote(2_000, 0, 96_000);
        let Totals {
            limit_states,
            pauses,
            ..
        } = day.totals();
        assert_eq!((limit_states, pauses), (after, before));
        day.settle(17_000);
        assert_eq!((day.state(), day.totals().pauses), (3, after));
        assert_eq!(day.totals().limit_states, after);
    }
}

/// T counts in each state that takes it; O and R do not count, nor does a refused T.
#[test]
fn only_an_accepted_t_moves_highest_and_lowest() {
    let mut day = Day::new();
    assert_eq!(day.trade(100, 110_000), 0);
    assert_eq!(day.extremes(), (110_000, 110_000));
    assert_eq!(day.primary(Letter::O, 1_000, 200_000), 0);
    assert_eq!(day.extremes(), (110_000, 110_000));
    for (price, number, extremes) in [
        (240_001, 12, (110_000, 110_000)),
        (159_999, 12, (110_000, 110_000)),
        (200_000, 0, (200_000, 110_000)),
        (160_000, 0, (200_000, 110_000)),
        (200_001, 0, (200_001, 110_000)),
    ] {
        assert_eq!(day.trade(1_000, price), number);
        assert_eq!(day.extremes(), extremes);
    }
    day.quote(2_000, 240_000, 0);
    assert_eq!((day.state(), day.trade(2_000, 240_000)), (2, 0));
    assert_eq!(day.extremes(), (240_000, 110_000));
    day.settle(317_000);
    assert_eq!((day.state(), day.trade(317_000, 1)), (3, 11));
    assert_eq!(day.primary(Letter::R, 317_000, 50_000), 0);
    assert_eq!(day.extremes(), (240_000, 110_000));
    assert_eq!(day.trade(317_000, 51_000), 0);
    assert_eq!(day.extremes(), (240_000, 51_000));
}

/// A 0 is no T yet, each by itself; a lowest above the highest is kept until a T moves it.
#[test]
fn a_trade_moves_each_by_itself() {
    for (stood, price, moved) in [
        ((0, 0), 1, (1, 1)),
        ((0, 0), 999_999_999, (999_999_999, 999_999_999)),
        ((0, 7), 9, (9, 7)),
        ((0, 7), 5, (5, 5)),
        ((7, 0), 9, (9, 9)),
        ((7, 0), 5, (7, 5)),
        ((9, 5), 9, (9, 5)),
        ((9, 5), 5, (9, 5)),
        ((9, 5), 10, (10, 5)),
        ((9, 5), 4, (9, 4)),
        ((5, 9), 7, (7, 7)),
        ((5, 9), 4, (5, 4)),
        ((5, 9), 10, (10, 9)),
        ((999_999_999, 999_999_999), 1, (999_999_999, 1)),
    ] {
        let mut day = Day::new();
        day.records[0][HIGHEST_TRADE] = stood.0;
        day.records[0][LOWEST_TRADE] = stood.1;
        assert_eq!(day.extremes(), stood);
        assert_eq!(day.trade(100, price), 0);
        assert_eq!(day.extremes(), moved);
    }
}

/// One call of each kind, all of which a stock after `Day::opened` takes or refuses with another number than 1.
fn calls() -> Vec<Call> {
    let (stock, time) = (0, 2_000);
    let mut calls = vec![
        Call::Settle { stock, time },
        Call::Read { stock },
        Call::Next { stock },
        TOTALS,
    ];
    calls.extend(Letter::ALL.map(|letter| {
        Call::Tell(Message {
            letter,
            stock,
            time,
            participant: PRIMARY_NUMBER,
            price: 115_000,
            bid: 0,
            offer: 0,
        })
    }));
    calls
}

/// Whether these totals, put into the record, are rubbish: then every call answers 1 with zeros, and changes no byte.
fn is_rubbish(words: &[(usize, u32)]) -> bool {
    let numbers = calls().into_iter().map(|call| {
        let mut day = Day::opened();
        for &(word, number) in words {
            day.records[0][word] = number;
        }
        let before = day.clone();
        let given = day.play(&call);
        let mut zeros = Given::default();
        zeros.answer.number = 1;
        assert_eq!(given == zeros, given.answer.number == 1);
        assert!(given.answer.number != 1 || day == before);
        given.answer.number
    });
    let refused = numbers.filter(|&number| number == 1).count();
    assert!(refused == 0 || refused == calls().len());
    refused > 0
}

fn has_wrong_times(spent: [u32; 6]) -> bool {
    let word = |state| (SPENT + state, spent[state]);
    is_rubbish(&[0, 1, 2, 3, 4, 5].map(word))
}

/// The clock is 1,000. The last rows are sums of 1,000 and one to five times 4,294,967,296.
#[test]
fn the_times_must_add_up_to_the_clock() {
    const MAX: u32 = u32::MAX;
    for state in 0..6 {
        for (spent, wrong) in [(1_000, false), (999, true), (1_001, true), (0, true)] {
            let mut times = [0; 6];
            times[state] = spent;
            assert_eq!(has_wrong_times(times), wrong);
        }
        let mut times = [160, 170, 160, 170, 160, 180];
        assert!(!has_wrong_times(times));
        times[state] += 1;
        assert!(has_wrong_times(times));
        times[(state + 1) % 6] -= 1;
        assert!(!has_wrong_times(times));
        times[state] -= 2;
        assert!(has_wrong_times(times));
    }
    for times in [
        [MAX; 6],
        [1_001, MAX, 0, 0, 0, 0],
        [1 << 31, 1_000, 0, 1 << 31, 0, 0],
        [MAX, 0, 0, 0, MAX, 1_002],
        [1_003, MAX, MAX, MAX, 0, 0],
        [MAX, MAX, MAX, 1_004, MAX, 0],
        [MAX, MAX, MAX, MAX, MAX, 1_005],
    ] {
        assert!(has_wrong_times(times));
    }
}

#[test]
fn highest_and_lowest_have_a_range() {
    for (highest, lowest, wrong) in [
        (999_999_999, 999_999_999, false),
        (1_000_000_000, 0, true),
        (0, 1_000_000_000, true),
        (u32::MAX, 1, true),
        (1, u32::MAX, true),
        (0, 999_999_999, false),
        (999_999_999, 0, false),
        (1, 999_999_999, false),
    ] {
        let words = [(HIGHEST_TRADE, highest), (LOWEST_TRADE, lowest)];
        assert_eq!(is_rubbish(&words), wrong);
    }
    assert!(!is_rubbish(&[(LIMIT_STATES, u32::MAX), (PAUSES, u32::MAX)]));
}

/// Refused calls leave all totals, and so does settling that answers 14.
#[test]
fn a_refusal_leaves_all_totals() {
    let mut day = Day::opened();
    day.records[0][SPENT..].copy_from_slice(&[1, 2, 3, 4, 5, 985, 6, 7, 8, 9]);
    let before = day.clone();
    let settled = day.play(&Call::Settle {
        stock: 0,
        time: 30_999,
    });
    assert_eq!(settled.answer.number, 14);
    for (letter, time, participant, price, number) in [
        (Letter::T, 2_000, 2, 1_000_000_000, 4),
        (Letter::T, 999, 2, 115_000, 5),
        (Letter::T, 31_000, 2, 115_000, 6),
        (Letter::P, 2_000, 3, 0, 8),
        (Letter::O, 2_000, 2, 115_000, 9),
        (Letter::R, 2_000, 2, 115_000, 9),
        (Letter::P, 2_000, 2, 0, 16),
        (Letter::T, 2_000, 2, 138_001, 12),
    ] {
        let given = day.tell(letter, time, participant, [price, 0]);
        assert_eq!(given, number);
    }
    assert!(day == before);
    assert_eq!(day.totals().numbers(), [1, 2, 3, 4, 5, 985, 6, 7, 8, 9]);
}

/// A wrong shape is looked at first, then the stock's number, then its record. Reading the totals changes no byte.
#[test]
fn reading_the_totals_is_checked_like_reading_the_stock() {
    let mut day = Day::opened();
    day.trade(1_500, 115_000);
    let before = day.clone();
    let given = day.play(&TOTALS);
    let totals = Totals {
        spent: [1_000, 500, 0, 0, 0, 0],
        highest: 115_000,
        lowest: 115_000,
        ..Totals::default()
    };
    let expected = Given {
        totals,
        ..Given::default()
    };
    assert_eq!(given, expected);
    assert!(day == before);
    day.records[0][SPENT] += 1;
    for (length, stock, number) in [
        (PLACES - 1, u32::MAX, 1),
        (PLACES + 1, 0, 1),
        (PLACES, 1, 3),
        (PLACES, u32::MAX, 3),
        (PLACES, 0, 1),
    ] {
        day.prices.resize(length, 0);
        let given = day.play(&Call::Totals { stock });
        let mut expected = Given::default();
        expected.answer.number = number;
        assert_eq!(given, expected);
    }
}

/// No other call returns totals.
#[test]
fn other_calls_return_no_totals() {
    for call in calls() {
        let is_totals = matches!(call, Call::Totals { .. });
        let totals = Day::opened().play(&call).totals;
        assert_eq!(totals == Totals::default(), !is_totals);
    }
}
