//! Day totals: small days whose totals were worked out by hand, days that are bad, and days whose totals
//! are also kept call by call.

use second::totals::{of_day, Totals};
use second::*;

const E: u32 = 23_400_000;
/// With this E, pauses are late from 3,000,000 on and the bands are doubled again from 2,100,000 on.
const SHORT: u32 = 3_600_000;

/// What `second totals` prints for a day, or none if the day is bad.
fn run(day: impl AsRef<[u8]>) -> Option<String> {
    let mut output = Vec::new();
    let good = second::totals::run(day.as_ref(), &mut output).unwrap();
    assert!(good || output.is_empty(), "a bad day printed something");
    good.then(|| String::from_utf8(output).unwrap())
}

/// A day with so many stocks of tier 2, primary 2 and close 115,000. With reference 115,000 the bands are
/// 92,000 and 138,000, from 900,000 on 103,500 and 126,500.
fn day(stocks: usize, end: u32, messages: &[&str]) -> String {
    let setups = "S 2 1 2 115000\n".repeat(stocks);
    let lines: String = messages.iter().map(|line| format!("{line}\n")).collect();
    format!("C {stocks} {} {end}\n{setups}{lines}", messages.len())
}

/// The totals of a day with one stock: its line without stock number and line feed.
fn one(end: u32, messages: &[&str]) -> String {
    let printed = run(day(1, end, messages)).unwrap();
    let line = printed.strip_prefix("0 ").unwrap();
    line.strip_suffix('\n').unwrap().to_string()
}

/// The messages of document 01's day.
const MESSAGES: [&str; 7] = [
    "O 0 1000 2 115000",
    "Q 0 2000 5 114900 115100",
    "Q 0 3000 7 0 92000",
    "Q 0 4000 5 0 115100",
    "T 0 5000 92000",
    "R 0 319000 2 95000",
    "T 0 319500 120000",
];

/// The lines that document 01's day prints.
fn printed() -> String {
    let mut output = Vec::new();
    second::day::run(day(1, E, &MESSAGES).as_bytes(), &mut output).unwrap();
    String::from_utf8(output).unwrap()
}

/// The totals by document 01's printed lines, some words of them replaced.
fn by_lines(old: &str, new: &str, stocks: u32) -> Option<Vec<Totals>> {
    let read = |line: &&str| lines::message(line.as_bytes()).unwrap();
    let messages: Vec<Message> = MESSAGES.iter().map(read).collect();
    let printed = printed();
    assert!(printed.contains(old), "{old:?}");
    of_day(&printed.replace(old, new), &messages, stocks)
}

// The six times

/// Waiting to O, Trading to the quote of 4,000, Limit to x, Paused to R. The refused T adds no time.
#[test]
fn document_01s_day() {
    assert_eq!(
        one(E, &MESSAGES),
        "1000 3000 15000 300000 0 0 1 1 92000 92000"
    );
    let totals = Totals {
        times: [1_000, 3_000, 15_000, 300_000, 0, 0],
        limits: 1,
        pauses: 1,
        highest: 92_000,
        lowest: 92_000,
    };
    assert_eq!(by_lines("", "", 1), Some(vec![totals]));
    let none = Totals::default();
    assert_eq!(by_lines("", "", 3), Some(vec![totals, none, none]));
}

#[test]
fn lines_that_do_not_go_with_the_messages() {
    for (old, new) in [
        ("0 2000 Q", "0 2001 Q"),
        ("0 2000 Q", "1 2000 Q"),
        ("0 2000 Q", "0 2000 T"),
        ("0 2000 Q", "0 2000 QQ"),
        ("0 2000 Q", "0 2000 q"),
        ("0 31000 h", "0 18999 h"),
        ("0 31000 h", "1 31000 h"),
        ("0 31000 h 0 3", "0 31000 h 0 3 3"),
        ("0 31000 h 0", "0 31000 h"),
        ("0 31000 h 0", "0 31000 h  0"),
        ("0 31000 h 0", "0 31000 h -"),
        ("0 31000 h", "\n0 31000 h"),
        ("0 319500 T 12 1 95000 76000 114000 0 0 92000 1\n", ""),
        ("0 319500 T 12 1 95000 76000 114000 0 0 92000 1", "BAD 9"),
    ] {
        assert_eq!(by_lines(old, new, 1), None, "{old:?} {new:?}");
    }
    assert_eq!(by_lines("", "", 0), None);
    assert_eq!(of_day("0 1 h 4294967296 0 0 0 0 0 0 0 0\n", &[], 1), None);
    assert_eq!(of_day(&printed(), &[], 1), None);
}

#[test]
fn waiting_to_the_close() {
    let totals = one(E, &["T 0 23400000 100000"]);
    assert_eq!(totals, "23400000 0 0 0 0 0 0 0 0 0");
}

#[test]
fn trading_to_the_close() {
    let totals = one(E, &["O 0 1000 2 115000", "T 0 23700000 100000"]);
    assert_eq!(totals, "1000 23399000 0 0 0 0 0 0 0 0");
}

#[test]
fn limit_to_the_close() {
    let quote = "Q 0 23390000 5 0 92000";
    let totals = one(E, &["O 0 1000 2 115000", quote, "X 0 23400000 2 100000"]);
    assert_eq!(totals, "1000 23389000 10000 0 0 0 1 0 0 0");
}

/// The clock stands at the last accepted call, whatever is refused after it.
#[test]
fn a_refused_call_adds_no_time() {
    let totals = one(
        E,
        &[
            "O 0 1000 2 115000",
            "Q 0 1500 5 0 0",
            "R 0 2000 2 115000",
            "T 0 3000 138001",
            "Q 0 1499 5 0 0",
            "Q 0 4000 16 0 0",
            "Q 1 5000 5 0 0",
            "O 0 31000 2 115000",
            "P 0 40000 2",
        ],
    );
    // The last accepted call is h, at 31,000.
    assert_eq!(totals, "1000 30000 0 0 0 0 0 0 0 0");
}

/// A pause begun by P one millisecond before it would be late: p comes at E - 1, and z closes.
#[test]
fn the_last_pause_that_ends() {
    let totals = one(
        SHORT,
        &[
            "O 0 1000 2 115000",
            "Q 0 2999000 5 90000 0",
            "P 0 2999999 2",
            "T 0 3600000 115000",
        ],
    );
    assert_eq!(totals, "1000 2999000 0 600000 0 0 0 1 0 0");
}

// Limit states

/// Ended and begun again by two quotes, with Trading between them.
#[test]
fn two_limit_states() {
    let totals = one(
        E,
        &[
            "O 0 1000 2 115000",
            "Q 0 2000 5 0 92000",
            "Q 0 3000 5 0 93000",
            "Q 0 4500 5 0 92000",
            "T 0 5000 92000",
        ],
    );
    assert_eq!(totals, "1000 2500 1500 0 0 0 2 0 92000 92000");
}

/// The limit flag moves from the offer to the bid: Limit goes on.
#[test]
fn quotes_in_one_limit_state() {
    let totals = one(
        E,
        &[
            "O 0 1000 2 115000",
            "Q 0 2000 5 0 92000",
            "T 0 2500 110000",
            "Q 0 3000 7 138000 0",
            "Q 0 4000 5 0 0",
            "Q 0 5000 5 0 140000",
        ],
    );
    assert_eq!(totals, "1000 1000 3000 0 0 0 1 0 110000 110000");
}

/// The quote of 5,000 ends Limit, the mean 107,500 has bands 86,000 and 129,000, and the offer at 86,000,
/// left out before, begins it afresh. The pause starts 15,000 after that.
#[test]
fn limit_begun_afresh() {
    let totals = one(
        E,
        &[
            "O 0 1000 2 115000",
            "Q 0 2000 5 0 92000",
            "T 0 3000 100000",
            "Q 0 4000 7 0 86000",
            "Q 0 5000 5 0 0",
            "T 0 20000 100000",
        ],
    );
    assert_eq!(totals, "1000 1000 18000 0 0 0 2 1 100000 100000");
}

/// The same in one millisecond: the second entry has the time of the first.
#[test]
fn limit_begun_afresh_at_once() {
    let totals = one(
        E,
        &[
            "O 0 1000 2 115000",
            "T 0 1500 100000",
            "Q 0 2000 7 0 86000",
            "Q 0 2000 5 0 92000",
            "Q 0 2000 5 0 0",
            "T 0 2500 90000",
        ],
    );
    assert_eq!(totals, "1000 1000 500 0 0 0 2 0 100000 90000");
}

/// Limit across 900,000 ends with an empty window. The reference stays, k and the bands change.
#[test]
fn limit_begun_afresh_from_the_same_reference() {
    let totals = one(
        E,
        &[
            "O 0 1000 2 115000",
            "Q 0 890000 5 0 92000",
            "Q 0 901000 5 0 103500",
            "T 0 902000 103500",
        ],
    );
    assert_eq!(totals, "1000 889000 12000 0 0 0 2 0 103500 103500");
}

/// Reference 115,050 has bands 92,000 and 138,100; 115,063 has 92,100 and 138,100.
#[test]
fn limit_begun_afresh_with_another_lower_band() {
    let totals = one(
        E,
        &[
            "O 0 1000 2 115050",
            "Q 0 2000 5 0 92000",
            "T 0 3000 115076",
            "Q 0 4000 5 0 92100",
        ],
    );
    assert_eq!(totals, "1000 1000 2000 0 0 0 2 0 115076 115076");
}

/// Reference 115,040 has bands 92,000 and 138,000; 115,042 has 92,000 and 138,100.
#[test]
fn limit_begun_afresh_with_another_upper_band() {
    let totals = one(
        E,
        &[
            "O 0 1000 2 115040",
            "Q 0 2000 5 138000 0",
            "T 0 3000 115044",
            "Q 0 4000 5 138100 0",
        ],
    );
    assert_eq!(totals, "1000 1000 2000 0 0 0 2 0 115044 115044");
}

/// A resting offer at the band: O, R and p each lead to Limit with no time in Trading.
#[test]
fn limit_without_trading_before_it() {
    let totals = one(
        E,
        &[
            "Q 0 500 5 0 92000",
            "O 0 1000 2 115000",
            "R 0 316000 2 115000",
            "Q 0 400000 5 0 103500",
            "T 0 931000 103500",
        ],
    );
    assert_eq!(totals, "1000 0 30000 900000 0 0 3 2 103500 103500");
}

// Pauses

/// One pause by P, one by x.
#[test]
fn two_pauses() {
    let totals = one(
        E,
        &[
            "O 0 1000 2 115000",
            "Q 0 2000 5 90000 0",
            "P 0 3000 2",
            "R 0 303000 2 115000",
            "Q 0 304000 5 138000 0",
            "P 0 319000 2",
        ],
    );
    assert_eq!(totals, "1000 3000 15000 300000 0 0 1 2 0 0");
}

#[test]
fn a_refused_p_is_no_pause() {
    let totals = one(
        E,
        &[
            "P 0 500 2",
            "O 0 1000 2 115000",
            "P 0 2000 2",
            "Q 0 3000 5 90000 0",
            "P 0 4000 3",
        ],
    );
    assert_eq!(totals, "1000 2000 0 0 0 0 0 0 0 0");
}

/// P at 3,000,500 begins a Late pause, which X ends.
#[test]
fn a_late_pause_by_p() {
    let totals = one(
        SHORT,
        &[
            "O 0 1000 2 115000",
            "Q 0 3000000 5 90000 0",
            "P 0 3000500 2",
            "X 0 3600000 2 99000",
        ],
    );
    assert_eq!(totals, "1000 2999500 0 0 599500 0 0 1 0 0");
}

/// x at 3,000,000 begins a Late pause, which c ends at E + 300,000.
#[test]
fn a_late_pause_by_x() {
    let totals = one(
        SHORT,
        &[
            "O 0 1000 2 115000",
            "Q 0 2985000 5 0 92000",
            "T 0 3900000 115000",
        ],
    );
    assert_eq!(totals, "1000 2984000 15000 0 900000 0 1 1 0 0");
}

// Highest and lowest

/// A trade in Waiting, in Trading and in Limit: the first is the highest, the last the lowest.
#[test]
fn trades_in_each_state_that_takes_them() {
    let totals = one(
        E,
        &[
            "T 0 1000 150000",
            "O 0 2000 2 115000",
            "T 0 3000 116000",
            "Q 0 4000 5 0 92000",
            "T 0 5000 93000",
        ],
    );
    assert_eq!(totals, "2000 2000 1000 0 0 0 1 0 150000 93000");
    assert_eq!(one(E, &["T 0 0 7"]), "0 0 0 0 0 0 0 0 7 7");
    assert_eq!(one(E, &["T 0 0 7", "T 0 0 9"]), "0 0 0 0 0 0 0 0 9 7");
    assert_eq!(one(E, &["T 0 0 9", "T 0 0 7"]), "0 0 0 0 0 0 0 0 9 7");
    let ends = one(E, &["T 0 0 1", "T 0 5 999999999"]);
    assert_eq!(ends, "5 0 0 0 0 0 0 0 999999999 1");
}

/// Refused with 3, 4, 5, 12 in Trading, 12 in Limit and 11.
#[test]
fn a_refused_trade_is_neither_highest_nor_lowest() {
    let totals = one(
        E,
        &[
            "O 0 2000 2 115000",
            "T 0 3000 116000",
            "T 1 3000 200000",
            "T 0 3000 1000000000",
            "T 0 3000 0",
            "T 0 2999 117000",
            "T 0 3500 138001",
            "T 0 3500 91999",
            "Q 0 4000 5 0 92000",
            "T 0 4500 138001",
            "T 0 19000 117000",
        ],
    );
    assert_eq!(totals, "2000 2000 15000 0 0 0 1 1 116000 116000");
}

/// The prices of O and R are no trades, although both join the window.
#[test]
fn an_opening_is_neither_highest_nor_lowest() {
    let start = [
        "O 0 1000 2 115000",
        "Q 0 2000 5 90000 0",
        "P 0 3000 2",
        "R 0 303000 2 80000",
    ];
    assert_eq!(one(E, &start), "1000 2000 0 300000 0 0 0 1 0 0");
    let then = [&start[..], &["T 0 304000 85000"]].concat();
    assert_eq!(one(E, &then), "1000 3000 0 300000 0 0 0 1 85000 85000");
}

// Stocks and lines

#[test]
fn stocks_have_their_own_totals() {
    let printed = run(day(
        4,
        E,
        &[
            "O 3 1000 2 115000",
            "T 0 5000 60000",
            "Q 3 2000 5 0 92000",
            "T 3 2500 92500",
            "T 0 7000 50000",
            "T 2 8000 0",
        ],
    ));
    let wanted = "\
        0 7000 0 0 0 0 0 0 0 60000 50000\n\
        1 0 0 0 0 0 0 0 0 0 0\n\
        2 0 0 0 0 0 0 0 0 0 0\n\
        3 1000 1000 500 0 0 0 1 0 92500 92500\n";
    assert_eq!(printed.as_deref(), Some(wanted));
}

#[test]
fn sixty_four_stocks() {
    let printed = run(day(64, E, &["T 63 100 630", "T 8 200 80", "T 64 300 1"])).unwrap();
    let lines: Vec<&str> = printed.split_terminator('\n').collect();
    assert_eq!(lines.len(), 64);
    for (stock, line) in lines.into_iter().enumerate() {
        let rest = match stock {
            8 => "200 0 0 0 0 0 0 0 80 80",
            63 => "100 0 0 0 0 0 0 0 630 630",
            _ => "0 0 0 0 0 0 0 0 0 0",
        };
        assert_eq!(line, format!("{stock} {rest}"));
    }
}

#[test]
fn without_messages_all_totals_are_0() {
    let printed = run(day(2, E, &[]));
    let wanted = "0 0 0 0 0 0 0 0 0 0 0\n1 0 0 0 0 0 0 0 0 0 0\n";
    assert_eq!(printed.as_deref(), Some(wanted));
}

#[test]
fn input_behind_the_last_message_stays_unread() {
    let good = day(1, E, &MESSAGES);
    assert_eq!(run(format!("{good}rubbish")), run(good));
}

#[test]
fn a_bad_day_has_no_totals() {
    let good = day(1, E, &MESSAGES);
    assert!(run(&good).is_some());
    for (old, new) in [
        ("C 1 7 23400000", "C 1 8 23400000"),
        ("C 1 7 23400000", "C 2 7 23400000"),
        ("C 1 7 23400000", "C 0 7 23400000"),
        ("C 1 7 23400000", "C 1 7 3599999"),
        ("S 2 1 2 115000", "S 2 1 2 0"),
        ("T 0 5000 92000", "T 0 5000"),
        ("T 0 319500 120000", "T 0 319500 120000 "),
        ("T 0 319500 120000\n", "T 0 319500 120000"),
    ] {
        assert!(good.contains(old), "{old:?}");
        assert_eq!(run(good.replace(old, new)), None, "{old:?} {new:?}");
    }
    assert_eq!(run(""), None);
    assert_eq!(run(day(0, E, &[])), None);
    assert_eq!(run(day(65, E, &[])), None);
}

#[test]
fn a_closed_output_is_an_error() {
    let mut space = [0; 10];
    let good = day(1, E, &MESSAGES);
    assert!(second::totals::run(good.as_bytes(), &mut space[..]).is_err());
}

// Totals kept call by call

/// A small generator of numbers, the same on every run.
struct Dice(u64);

impl Dice {
    fn below(&mut self, bound: u32) -> u32 {
        self.0 = self
            .0
            .wrapping_mul(6_364_136_223_846_793_005)
            .wrapping_add(1_442_695_040_888_963_407);
        (self.0 >> 32) as u32 % bound
    }

    fn one_of(&mut self, values: &[u32]) -> u32 {
        values[self.below(values.len() as u32) as usize]
    }
}

/// The bands now and those of the window's mean; without a reference and a trade, 92,000 and 138,000.
fn bands(stock: &Stock) -> [u32; 4] {
    let now = read(std::slice::from_ref(stock), 0);
    let sum: u64 = stock
        .trades
        .iter()
        .map(|trade| u64::from(trade.price))
        .sum();
    let count = stock.trades.len() as u64;
    let mut then = stock.clone();
    then.state = TRADING;
    if count != 0 {
        then.reference = Mean { sum, count };
    }
    let then = read(&[then], 0);
    match then.upper {
        0 => [92_000, 138_000, 92_000, 138_000],
        _ => [now.lower, now.upper, then.lower, then.upper],
    }
}

/// A message near what the stock may take. Quotes are at the bands now or at those of the window's mean, so
/// that Limit often begins afresh.
fn likely(dice: &mut Dice, stock: &Stock, number: u32) -> Message {
    let [lower, upper, next_lower, next_upper] = bands(stock);
    let far = dice.one_of(&[5, 1_000, 1_000, 5_000, 5_000, 40_000, 310_000]);
    let letter = match dice.below(12) {
        0..=3 => Letter::T,
        4..=8 => Letter::Q,
        _ => Letter::ALL[dice.below(6) as usize],
    };
    let participant = match letter {
        Letter::Q => dice.below(2),
        _ => stock.setup.primary,
    };
    Message {
        letter,
        stock: number,
        time: stock.clock + dice.below(far),
        participant,
        price: next_lower + dice.below(next_upper - next_lower + 1),
        bid: dice.one_of(&[0, 0, upper, next_upper, lower.saturating_sub(1)]),
        offer: dice.one_of(&[0, 0, lower, next_lower, upper + 1]),
    }
}

/// A message's line.
fn line(m: &Message) -> String {
    let (letter, stock, time) = (char::from(m.letter.byte()), m.stock, m.time);
    let rest = match m.letter {
        Letter::T => format!("{}", m.price),
        Letter::Q => format!("{} {} {}", m.participant, m.bid, m.offer),
        Letter::P => format!("{}", m.participant),
        Letter::O | Letter::R | Letter::X => format!("{} {}", m.participant, m.price),
    };
    format!("{letter} {stock} {time} {rest}")
}

/// Whether this message is a quote with which neither side has flag 3 by the bands of a Limit.
fn ends_limit(before: &Stock, m: &Message) -> bool {
    let mut quoted = before.clone();
    if m.letter == Letter::Q {
        quoted.bids[m.participant as usize] = m.bid;
        quoted.offers[m.participant as usize] = m.offer;
    }
    let answer = read(&[quoted], 0);
    answer.bid_flag != 3 && answer.offer_flag != 3
}

/// Adds an accepted call, a message or a moment, by the records before and after it.
fn keep(totals: &mut Totals, before: &Stock, after: &Stock, m: Option<&Message>) {
    totals.times[before.state as usize] += after.clock - before.clock;
    let ended = m.is_some_and(|m| ends_limit(before, m));
    let entered = after.state == LIMIT && (before.state != LIMIT || ended);
    totals.limits += u32::from(entered);
    let is_pause = |stock: &Stock| [PAUSED, LATE_PAUSE].contains(&stock.state);
    totals.pauses += u32::from(is_pause(after) && !is_pause(before));
    if let Some(m) = m.filter(|m| m.letter == Letter::T) {
        let first = totals.lowest == 0;
        totals.highest = totals.highest.max(m.price);
        totals.lowest = if first {
            m.price
        } else {
            totals.lowest.min(m.price)
        };
    }
}

/// Settles and tells a message, and adds each accepted call. Returns how many Limits began afresh.
fn play(book: &mut [Stock], kept: &mut [Totals], m: &Message) -> u32 {
    let stock = m.stock as usize;
    loop {
        let before = book[stock].clone();
        if settle(book, m.stock, m.time).answer.number != 0 {
            break;
        }
        keep(&mut kept[stock], &before, &book[stock], None);
    }
    let before = book[stock].clone();
    if tell(book, m).number != 0 {
        return 0;
    }
    let limits = kept[stock].limits;
    keep(&mut kept[stock], &before, &book[stock], Some(m));
    let stayed = before.state == LIMIT && book[stock].state == LIMIT;
    u32::from(stayed && kept[stock].limits != limits)
}

/// Compares the totals of a random day of two stocks. Returns them, and how many Limits began afresh.
fn random_day(dice: &mut Dice) -> (Vec<Totals>, u32) {
    let one = Setup {
        tier: 2,
        leverage: 1,
        primary: 2,
        close: 115_000,
    };
    let mut book = setup(&[one, one], SHORT).unwrap();
    let mut kept = vec![Totals::default(); 2];
    let mut messages = Vec::new();
    let mut afresh = 0;
    for _ in 0..200 {
        let stock = dice.below(2);
        let m = likely(dice, &book[stock as usize], stock);
        afresh += play(&mut book, &mut kept, &m);
        messages.push(line(&m));
    }
    let messages: Vec<&str> = messages.iter().map(String::as_str).collect();
    let printed = run(day(2, SHORT, &messages)).unwrap();
    for ((stock, totals), line) in book.iter().zip(&kept).zip(printed.lines()) {
        let fields: Vec<u32> = line.split(' ').map(|word| word.parse().unwrap()).collect();
        assert_eq!(fields[1..7], totals.times);
        let others = [totals.limits, totals.pauses, totals.highest, totals.lowest];
        assert_eq!(fields[7..], others);
        assert_eq!(fields[1..7].iter().sum::<u32>(), stock.clock);
    }
    assert_eq!(printed.lines().count(), 2);
    (kept, afresh)
}

/// The totals from the lines equal those kept call by call, and the times add up to the clock. Each time
/// but Closed's, which stays 0, each count and a Limit begun afresh must occur.
#[test]
fn totals_kept_call_by_call() {
    let mut dice = Dice(4);
    let mut sums = [0; 6];
    let (mut limits, mut pauses, mut afresh) = (0, 0, 0);
    for _ in 0..500 {
        let (kept, more) = random_day(&mut dice);
        for totals in &kept {
            for (sum, time) in sums.iter_mut().zip(totals.times) {
                *sum += u64::from(time);
            }
            limits += totals.limits;
            pauses += totals.pauses;
        }
        afresh += more;
    }
    assert!(sums[..5].iter().all(|&sum| sum > 0), "{sums:?}");
    assert_eq!(sums[5], 0);
    assert!(limits > 1_000 && pauses > 1_000, "{limits} {pauses}");
    assert!(afresh > 100, "{afresh}");
}
