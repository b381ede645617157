//! Document 01's message table, numbers, states and moments, through the library's calls.

use second::*;

const E: u32 = 23_400_000;
const PRIMARY: u32 = 2;

fn fresh() -> Stock {
    let one = Setup {
        tier: 2,
        leverage: 1,
        primary: PRIMARY,
        close: 115_000,
    };
    setup(&[one], E).unwrap().remove(0)
}

/// Trading at 115,000 since 1,000 with bands 92,000 and 138,000.
fn trading() -> Stock {
    Stock {
        state: TRADING,
        clock: 1_000,
        reference: Mean::of_price(115_000),
        reference_start: 1_000,
        ..fresh()
    }
}

/// Limit since 1,000, by an offer at the lower band.
fn limit() -> Stock {
    let mut stock = trading();
    stock.state = LIMIT;
    stock.limit_entry = 1_000;
    stock.offers[7] = 92_000;
    stock
}

fn paused() -> Stock {
    Stock {
        state: PAUSED,
        clock: 200_000,
        pause_start: 1_000,
        hold_ended: 1,
        ..trading()
    }
}

fn late_pause() -> Stock {
    Stock {
        state: LATE_PAUSE,
        clock: E - 1,
        pause_start: E - 600_000,
        hold_ended: 1,
        early_w_done: 1,
        late_w_done: 1,
        ..trading()
    }
}

fn closed() -> Stock {
    Stock {
        state: CLOSED,
        clock: E,
        ..late_pause()
    }
}

fn mean(sum: u64, count: u64) -> Mean {
    Mean { sum, count }
}

fn message(letter: Letter, time: u32) -> Message {
    Message {
        letter,
        stock: 0,
        time,
        participant: 0,
        price: 0,
        bid: 0,
        offer: 0,
    }
}

fn trade(time: u32, price: u32) -> Message {
    let mut m = message(Letter::T, time);
    m.price = price;
    m
}

fn quote(time: u32, participant: u32, bid: u32, offer: u32) -> Message {
    let mut m = message(Letter::Q, time);
    (m.participant, m.bid, m.offer) = (participant, bid, offer);
    m
}

/// O, P, R or X by the primary.
fn primary(letter: Letter, time: u32, price: u32) -> Message {
    let mut m = message(letter, time);
    (m.participant, m.price) = (PRIMARY, price);
    m
}

fn tell_one(stock: &mut Stock, m: &Message) -> Answer {
    let before = stock.clone();
    let answer = tell(std::slice::from_mut(stock), m);
    if answer.number != 0 {
        assert_eq!(*stock, before, "a refusal leaves all as it stood");
    }
    answer
}

fn settle_one(stock: &mut Stock, time: u32) -> Notice {
    let before = stock.clone();
    let notice = settle(std::slice::from_mut(stock), 0, time);
    if notice.answer.number != 0 {
        assert_eq!(*stock, before, "a refusal leaves all as it stood");
    }
    notice
}

/// Settles to a time and gives the marks and times done.
fn settle_all(stock: &mut Stock, time: u32) -> Vec<(char, u32)> {
    let mut done = Vec::new();
    loop {
        let notice = settle_one(stock, time);
        if notice.answer.number != 0 {
            assert_eq!((notice.answer.number, notice.mark, notice.time), (14, 0, 0));
            return done;
        }
        done.push((char::from(notice.mark), notice.time));
    }
}

/// A straddle in Trading; in any state a quote that refuses nothing.
fn with_low_bid(mut stock: Stock) -> Stock {
    if stock.state != CLOSED {
        stock.bids[3] = 90_000;
    }
    stock
}

#[test]
fn the_36_cells() {
    let expected = [
        (Letter::T, [0, 0, 0, 11, 11, 7]),
        (Letter::Q, [0, 0, 0, 0, 0, 7]),
        (Letter::O, [0, 9, 9, 9, 9, 7]),
        (Letter::P, [9, 0, 9, 9, 9, 7]),
        (Letter::R, [9, 9, 9, 0, 9, 7]),
        (Letter::X, [9, 9, 9, 9, 0, 7]),
    ];
    let states = [
        (fresh(), 2_000),
        (trading(), 2_000),
        (limit(), 2_000),
        (paused(), 301_000),
        (late_pause(), E),
        (closed(), E),
    ];
    for (letter, row) in expected {
        for (state, number) in row.into_iter().enumerate() {
            let (stock, time) = &states[state];
            let mut stock = with_low_bid(stock.clone());
            assert_eq!(stock.state as usize, state);
            let mut m = primary(letter, *time, 115_000);
            m.bid = 100_000;
            let answer = tell_one(&mut stock, &m);
            assert_eq!(answer.number, number, "{letter:?} in {state}");
            if number == 0 {
                assert_eq!(stock.clock, *time, "{letter:?} in {state}");
            }
        }
    }
}

#[test]
fn what_each_taken_message_does() {
    let mut stock = fresh();
    assert_eq!(tell_one(&mut stock, &trade(2_000, 7)).state, WAITING);
    assert_eq!(stock.trades.len(), 1);

    let answer = tell_one(&mut stock, &primary(Letter::O, 3_000, 115_000));
    assert_eq!((answer.number, answer.state), (0, TRADING));
    assert_eq!((answer.lower, answer.upper), (92_000, 138_000));
    let alone = Trade {
        time: 3_000,
        price: 115_000,
    };
    assert_eq!(stock.trades, [alone]);
    assert_eq!((stock.reference_start, stock.hold_ended), (3_000, 0));

    let answer = tell_one(&mut stock, &quote(4_000, 15, 91_999, 0));
    assert_eq!((answer.bid, answer.bid_flag, answer.state), (91_999, 2, 1));
    let answer = tell_one(&mut stock, &primary(Letter::P, 5_000, 0));
    assert_eq!((answer.number, answer.state), (0, PAUSED));
    assert_eq!((answer.lower, answer.upper), (0, 0));
    assert_eq!((answer.bid, answer.bid_flag), (91_999, 1));
    assert_eq!(stock.pause_start, 5_000);

    settle_all(&mut stock, 305_000);
    assert_eq!(
        tell_one(&mut stock, &primary(Letter::R, 304_999, 9)).number,
        10
    );
    let answer = tell_one(&mut stock, &primary(Letter::R, 305_000, 100_000));
    assert_eq!((answer.number, answer.state), (0, TRADING));
    assert_eq!(answer.reference, 100_000);
    assert_eq!((stock.reference_start, stock.hold_ended), (305_000, 0));
    assert_eq!(stock.trades.len(), 1);

    let mut stock = with_low_bid(late_pause());
    let answer = tell_one(&mut stock, &primary(Letter::X, E, 1));
    assert_eq!((answer.number, answer.state), (0, CLOSED));
    assert_eq!(
        (answer.reference, answer.bid, answer.lower),
        (115_000, 0, 0)
    );
    assert_eq!(stock.bids, [0; PARTICIPANTS]);
    assert!(stock.trades.is_empty() && stock.moments().is_empty());
}

#[test]
fn setup_looks_at_1_and_2() {
    let good = fresh().setup;
    assert_eq!(setup(&[], 0), Err(1));
    assert_eq!(setup(&[good; 65], 0), Err(1));
    assert_eq!(setup(&[good; 64], E).unwrap().len(), 64);
    for end in [0, 3_599_999, 23_400_001, u32::MAX] {
        assert_eq!(setup(&[good], end), Err(2));
    }
    assert!(setup(&[good], 3_600_000).is_ok());
    let cases = [
        (0, 1, 0, 1),
        (3, 1, 0, 1),
        (1, 2, 0, 1),
        (1, 0, 0, 1),
        (2, 0, 0, 1),
        (2, 4, 0, 1),
        (2, 1, 16, 1),
        (2, 1, 0, 0),
        (2, 1, 0, 1_000_000_000),
    ];
    for (tier, leverage, primary, close) in cases {
        let bad = Setup {
            tier,
            leverage,
            primary,
            close,
        };
        assert_eq!(setup(&[good, bad], E), Err(2), "{bad:?}");
    }
    let widest = Setup {
        tier: 2,
        leverage: 3,
        primary: 15,
        close: 999_999_999,
    };
    assert!(setup(&[good, widest], E).is_ok());
}

#[test]
fn a_number_of_1_or_3_comes_with_zeros() {
    let zeros = |number| Answer {
        number,
        ..Answer::default()
    };
    let m = trade(2_000, 115_000);
    assert_eq!(tell(&mut [], &m), zeros(1));
    assert_eq!(tell(&mut vec![trading(); 65], &m), zeros(1));
    assert_eq!(settle(&mut [], 0, 0).answer, zeros(1));
    assert_eq!(read(&[], 0), zeros(1));
    let mut one = [trading()];
    let other = Message { stock: 1, ..m };
    assert_eq!(tell(&mut one, &other), zeros(3));
    assert_eq!(settle(&mut one, u32::MAX, 0).answer, zeros(3));
    assert_eq!(read(&one, 1), zeros(3));
    assert_eq!(read(&one, 0).number, 0);
    one[0].state = 6;
    assert_eq!(tell(&mut one, &m), zeros(1));
    assert_eq!(tell(&mut one, &other), zeros(3));
    assert_eq!(settle(&mut one, 0, 0).answer, zeros(1));
    assert_eq!(read(&one, 0), zeros(1));
}

/// A name, a good stock, and a change to it.
type Case = (&'static str, fn() -> Stock, fn(&mut Stock));

/// Each of these changes makes a good stock rubbish.
#[test]
fn rubbish() {
    let cases: &[Case] = &[
        ("state", fresh, |s| s.state = 6),
        ("tier", fresh, |s| s.setup.tier = 0),
        ("tier and leverage", fresh, |s| {
            (s.setup.tier, s.setup.leverage) = (1, 2)
        }),
        ("leverage", fresh, |s| s.setup.leverage = 4),
        ("primary", fresh, |s| s.setup.primary = 16),
        ("close", fresh, |s| s.setup.close = 0),
        ("E low", fresh, |s| s.end = 3_599_999),
        ("E high", fresh, |s| s.end = 23_400_001),
        ("clock", closed, |s| s.clock = E + 300_001),
        ("start", closed, |s| s.reference_start = E + 300_001),
        ("entry", closed, |s| s.limit_entry = u32::MAX),
        ("pause", closed, |s| s.pause_start = E + 300_001),
        ("bid", fresh, |s| s.bids[15] = 1_000_000_000),
        ("offer", closed, |s| s.offers[0] = u32::MAX),
        ("reference over", fresh, |s| {
            s.reference = mean(1_000_000_000, 1)
        }),
        ("reference over in 1", trading, |s| {
            s.reference = mean(1_000_000_000, 1)
        }),
        ("sum under the count", closed, |s| s.reference = mean(1, 2)),
        ("sum 0 with a count", fresh, |s| s.reference = mean(0, 1)),
        ("sum without a count", closed, |s| s.reference = mean(1, 0)),
        ("sum over by 1", limit, |s| {
            s.reference = mean(512 * 999_999_999 + 1, 512)
        }),
        ("the largest sum", late_pause, |s| {
            s.reference = mean(u64::MAX, 512)
        }),
        ("count over", paused, |s| s.reference = mean(513, 513)),
        ("the largest count", closed, |s| {
            s.reference = mean(u64::MAX, u64::MAX)
        }),
        ("no reference in 1", trading, |s| s.reference = mean(0, 0)),
        ("no reference in 2", limit, |s| s.reference = mean(0, 0)),
        ("no reference in 3", paused, |s| s.reference = mean(0, 0)),
        ("no reference in 4", late_pause, |s| {
            s.reference = mean(0, 0)
        }),
        ("late start in 3", paused, |s| s.pause_start = E - 600_000),
        ("513 trades", trading, |s| {
            s.trades = vec![Trade { time: 5, price: 5 }; 513]
        }),
        ("trade price 0", trading, |s| {
            s.trades = vec![Trade { time: 5, price: 0 }]
        }),
        ("trade price over", trading, |s| {
            s.trades = vec![Trade {
                time: 5,
                price: 1_000_000_000,
            }]
        }),
        ("trade after clock", trading, |s| {
            s.trades = vec![Trade {
                time: 1_001,
                price: 5,
            }]
        }),
        ("trade time over", closed, |s| {
            s.trades = vec![Trade {
                time: u32::MAX,
                price: 5,
            }]
        }),
        ("trade before the one ahead", trading, |s| {
            s.trades = vec![Trade { time: 5, price: 5 }, Trade { time: 4, price: 5 }]
        }),
        ("missed z", trading, |s| {
            (s.clock, s.early_w_done, s.late_w_done, s.hold_ended) = (E + 1, 1, 1, 1)
        }),
        ("missed w", trading, |s| {
            (s.clock, s.hold_ended) = (900_001, 1)
        }),
        ("missed late w", trading, |s| {
            (s.clock, s.early_w_done, s.hold_ended) = (E - 1_499_999, 1, 1)
        }),
        ("missed x", limit, |s| s.clock = 16_001),
        ("missed p", paused, |s| s.clock = 601_001),
        ("missed v", paused, |s| {
            s.trades = vec![Trade { time: 0, price: 5 }];
            s.clock = 300_001;
        }),
        ("missed f", fresh, |s| s.clock = 300_001),
        ("missed h", trading, |s| s.clock = 31_001),
    ];
    for (name, base, change) in cases {
        let mut stock = base();
        assert!(!stock.is_rubbish(), "{name} before");
        change(&mut stock);
        assert!(stock.is_rubbish(), "{name}");
        assert_eq!(tell_one(&mut stock, &trade(2_000, 5)).number, 1, "{name}");
    }
}

/// Each of these changes is on the good side of the edge.
#[test]
fn not_rubbish() {
    let cases: &[Case] = &[
        ("times", closed, |s| {
            s.clock = E + 300_000;
            s.reference_start = E + 300_000;
            s.limit_entry = E + 300_000;
            s.pause_start = E + 300_000;
        }),
        ("no reference in 0", fresh, |s| s.reference = mean(0, 0)),
        ("no reference in 5", closed, |s| s.reference = mean(0, 0)),
        ("the least reference", trading, |s| s.reference = mean(1, 1)),
        ("the least sum of 512", trading, |s| {
            s.reference = mean(512, 512)
        }),
        ("the greatest of 512", trading, |s| {
            s.reference = mean(512 * 999_999_999, 512)
        }),
        ("a reference in 0", fresh, |s| s.reference = mean(7, 3)),
        ("markers", trading, |s| {
            s.early_w_done = u32::MAX;
            s.late_w_done = 7;
            s.f_done = 9;
            s.hold_ended = 5;
        }),
        ("512 trades", trading, |s| {
            s.trades = vec![Trade { time: 5, price: 5 }; 512]
        }),
        ("z now", trading, |s| {
            (s.clock, s.early_w_done, s.late_w_done, s.hold_ended) = (E, 1, 1, 1)
        }),
        ("w now", trading, |s| (s.clock, s.hold_ended) = (900_000, 1)),
        ("x now", limit, |s| s.clock = 16_000),
        ("p now", paused, |s| s.clock = 601_000),
        ("f now", fresh, |s| s.clock = 300_000),
        ("h now", trading, |s| s.clock = 31_000),
        ("pause start late in 4", late_pause, |s| s.pause_start = 0),
        ("closed with trades and no moments", closed, |s| {
            s.trades = vec![Trade { time: 5, price: 5 }]
        }),
    ];
    for (name, base, change) in cases {
        let mut stock = base();
        change(&mut stock);
        assert!(!stock.is_rubbish(), "{name}");
    }
}

#[test]
fn checks_in_order() {
    let number = |stock: &Stock, m: &Message| tell_one(&mut stock.clone(), m).number;
    let stock = trading();
    let over = 1_000_000_000;
    // 4 before 5; each field that the letter uses.
    assert_eq!(number(&stock, &trade(0, 0)), 4);
    assert_eq!(number(&stock, &trade(2_000, over)), 4);
    assert_eq!(number(&stock, &trade(E + 300_001, 115_000)), 4);
    assert_eq!(number(&stock, &trade(u32::MAX, 115_000)), 4);
    assert_eq!(number(&stock, &quote(2_000, 16, 0, 0)), 4);
    assert_eq!(number(&stock, &quote(2_000, 0, over, 0)), 4);
    assert_eq!(number(&stock, &quote(2_000, 0, 0, over)), 4);
    assert_eq!(number(&stock, &quote(2_000, 0, over - 1, 0)), 0);
    for letter in [Letter::O, Letter::R, Letter::X] {
        assert_eq!(number(&stock, &primary(letter, 2_000, 0)), 4);
        assert_eq!(number(&stock, &primary(letter, 2_000, over)), 4);
    }
    let mut pause = primary(Letter::P, 2_000, 0);
    pause.participant = 16;
    assert_eq!(number(&stock, &pause), 4);
    // 5 before 6 and 8.
    assert_eq!(number(&stock, &trade(999, 115_000)), 5);
    let mut now = stock.clone();
    now.clock = 31_000;
    assert_eq!(number(&now, &trade(30_999, 115_000)), 5);
    // 6 before 8, 8 before the table.
    assert_eq!(number(&now, &trade(31_000, 115_000)), 6);
    pause.participant = 3;
    pause.time = 31_000;
    assert_eq!(number(&now, &pause), 6);
    pause.time = 2_000;
    assert_eq!(number(&stock, &pause), 8);
    let mut other = primary(Letter::O, E, 1);
    other.participant = 3;
    assert_eq!(number(&closed(), &other), 8);
    // R and X too early.
    assert_eq!(number(&paused(), &primary(Letter::R, 300_999, 1)), 10);
    assert_eq!(number(&late_pause(), &primary(Letter::X, E - 1, 1)), 10);
    // 12 before 13.
    let mut full = trading();
    full.trades = vec![
        Trade {
            time: 5,
            price: 115_000
        };
        512
    ];
    assert_eq!(number(&full, &trade(2_000, 91_999)), 12);
    assert_eq!(number(&full, &trade(2_000, 138_001)), 12);
    assert_eq!(number(&full, &trade(2_000, 92_000)), 13);
    full.trades.pop();
    assert_eq!(number(&full, &trade(2_000, 138_000)), 0);
    // Settling looks at 4 and 14.
    assert_eq!(settle_one(&mut trading(), E + 300_001).answer.number, 4);
    let notice = settle_one(&mut trading(), 30_999);
    assert_eq!((notice.mark, notice.time), (0, 0));
    assert_eq!((notice.answer.number, notice.answer.upper), (14, 138_000));
    assert_eq!(settle_one(&mut trading(), 0).answer.number, 14);
}

/// Waiting past 300,000: f has happened and found no trade.
fn waiting_late() -> Stock {
    Stock {
        clock: 300_000,
        f_done: 1,
        ..fresh()
    }
}

/// O, P, R or X by another participant than the primary.
fn by_another(letter: Letter, time: u32, price: u32) -> Message {
    Message {
        participant: PRIMARY + 1,
        ..primary(letter, time, price)
    }
}

#[test]
fn a_late_opening_is_15_in_waiting_only() {
    let number = |stock: &Stock, time: u32| {
        let m = primary(Letter::O, time, 115_000);
        tell_one(&mut stock.clone(), &m).number
    };
    assert_eq!(number(&fresh(), 299_999), 0);
    // f is still to come.
    assert_eq!(number(&fresh(), 300_000), 6);
    for time in [300_000, 300_001, 900_000] {
        let mut stock = waiting_late();
        settle_all(&mut stock, time);
        let answer = tell_one(&mut stock, &primary(Letter::O, time, 115_000));
        assert_eq!((answer.number, answer.state), (15, WAITING), "{time}");
        // 4 and 8 before 15.
        let other = by_another(Letter::O, time, 115_000);
        assert_eq!(tell_one(&mut stock, &other).number, 8, "{time}");
        let free = primary(Letter::O, time, 0);
        assert_eq!(tell_one(&mut stock, &free).number, 4, "{time}");
    }
    assert_eq!(number(&waiting_late(), 299_999), 5);
    // The message's time decides and not the clock, also in a record that no day reaches.
    let mut early = waiting_late();
    early.clock = 0;
    assert_eq!(number(&early, 299_999), 0);
    assert_eq!(number(&early, 300_000), 15);
    // Held trades make no difference.
    let mut held = waiting_late();
    held.trades = vec![Trade {
        time: 300_000,
        price: 115_000,
    }];
    assert_eq!(number(&held, 300_000), 15);
    // In every other state the table decides, at any time.
    for time in [299_999, 300_000, 300_001] {
        for state in [TRADING, LIMIT, PAUSED, LATE_PAUSE] {
            let stock = Stock {
                state,
                clock: 299_999,
                limit_entry: 299_999,
                pause_start: 299_999,
                hold_ended: 1,
                ..trading()
            };
            assert_eq!(number(&stock, time), 9, "{time} in {state}");
        }
    }
    assert_eq!(number(&closed(), E), 7);
}

#[test]
fn a_pause_without_straddle_is_16_in_trading_only() {
    let pause = primary(Letter::P, 2_000, 0);
    let number = |stock: &Stock, m: &Message| tell_one(&mut stock.clone(), m).number;
    // A bid and an offer, and what P gets with the bands 92,000 and 138,000.
    let cases = [
        (0, 0, 16),
        (92_000, 0, 16),
        (91_999, 0, 0),
        (0, 138_000, 16),
        (0, 138_001, 0),
        (91_999, 138_001, 0),
        (92_000, 138_000, 16),
        (115_000, 138_001, 0),
        // Left out: a bid above the upper band, an offer below the lower.
        (138_001, 91_999, 16),
    ];
    for (bid, offer, wanted) in cases {
        let mut stock = trading();
        (stock.bids[3], stock.offers[4]) = (bid, offer);
        assert_eq!(stock.state, TRADING);
        assert_eq!(number(&stock, &pause), wanted, "{bid} {offer}");
        // Another participant's is 8 with and without a straddle.
        let other = by_another(Letter::P, 2_000, 0);
        assert_eq!(number(&stock, &other), 8, "{bid} {offer}");
    }
    // A better quote within the bands hides the one beyond them.
    let mut hidden = with_low_bid(trading());
    hidden.bids[9] = 92_000;
    assert_eq!(number(&hidden, &pause), 16);
    // In every other state the table decides, with a low bid and without; in Limit it is a straddle.
    let answer = read(&[with_low_bid(limit())], 0);
    assert_eq!((answer.state, answer.bid_flag), (LIMIT, 2));
    for stock in [fresh(), limit(), paused(), late_pause(), closed()] {
        let m = primary(Letter::P, stock.clock.max(2_000), 0);
        let wanted = if stock.state == CLOSED { 7 } else { 9 };
        assert_eq!(number(&stock, &m), wanted, "{}", stock.state);
        let low = with_low_bid(stock);
        assert_eq!(number(&low, &m), wanted, "{} with a low bid", low.state);
    }
}

/// Trading at 100,000 with the hold ended, and this trade held since 40,000.
fn trading_with(price: u32) -> Stock {
    Stock {
        reference: Mean::of_price(100_000),
        hold_ended: 1,
        clock: 40_000,
        trades: vec![Trade {
            time: 40_000,
            price,
        }],
        ..trading()
    }
}

#[test]
fn b10_the_test_in_trading() {
    for (price, reference) in [(100_999, 100_000), (101_000, 101_000), (99_000, 99_000)] {
        let mut stock = trading_with(1);
        stock.trades.clear();
        let answer = tell_one(&mut stock, &trade(41_000, price));
        assert_eq!(answer.reference, reference, "B10");
        let anew = if reference == 100_000 {
            (1_000, 1)
        } else {
            (41_000, 0)
        };
        assert_eq!((stock.reference_start, stock.hold_ended), anew);
    }
    // Not before the hold has ended.
    let mut stock = trading();
    stock.reference = Mean::of_price(100_000);
    assert_eq!(
        tell_one(&mut stock, &trade(30_999, 110_000)).reference,
        100_000
    );
    let notice = settle_one(&mut stock, 31_000);
    assert_eq!((notice.mark, notice.answer.reference), (b'h', 110_000));
}

#[test]
fn b10_the_test_between_two_prices() {
    let mut stock = trading_with(100_999);
    let answer = tell_one(&mut stock, &trade(41_000, 101_000));
    assert_eq!((answer.reference, answer.lower), (100_000, 80_000), "B10");
    assert_eq!(stock.reference, mean(100_000, 1));
    // One ten-thousandth more, and the window's own sum and count are the reference.
    let mut stock = trading_with(100_999);
    let answer = tell_one(&mut stock, &trade(41_000, 101_001));
    assert_eq!((answer.reference, answer.lower), (101_000, 80_800), "B10");
    assert_eq!(stock.reference, mean(202_000, 2));
}

#[test]
fn b11_f_prints_the_mean_of_1_and_2() {
    let mut stock = fresh();
    tell_one(&mut stock, &trade(1, 1));
    tell_one(&mut stock, &trade(2, 2));
    let notice = settle_one(&mut stock, 300_000);
    assert_eq!((notice.mark, notice.answer.reference), (b'f', 2), "B11");
    assert_eq!(stock.reference, mean(3, 2), "B11");
    // The 1 leaves before the hold has ended, and h finds a mean of 2.
    assert_eq!(settle_one(&mut stock, 300_001).mark, b'v');
    assert_eq!(stock.reference, mean(3, 2));
    tell_one(&mut stock, &trade(300_001, 2));
    assert_eq!(settle_one(&mut stock, 300_002).mark, b'v');
    let notice = settle_one(&mut stock, 330_000);
    assert_eq!((notice.mark, notice.answer.reference), (b'h', 2));
    assert_eq!(stock.reference, mean(2, 1), "B11");
}

#[test]
fn o_and_r_make_a_reference_of_count_1() {
    let mut stock = fresh();
    tell_one(&mut stock, &trade(1, 7));
    tell_one(&mut stock, &primary(Letter::O, 2, 115_000));
    assert_eq!(stock.reference, mean(115_000, 1));
    let mut stock = paused();
    stock.reference = mean(345_001, 3);
    tell_one(&mut stock, &primary(Letter::R, 301_000, 99_000));
    assert_eq!(stock.reference, mean(99_000, 1));
}

#[test]
fn p_and_a_close_keep_both_numbers_of_the_reference() {
    let mut stock = paused();
    stock.reference = mean(345_002, 4);
    assert_eq!(settle_one(&mut stock, 601_000).mark, b'p');
    assert_eq!((stock.state, stock.reference), (TRADING, mean(345_002, 4)));
    assert_eq!(settle_all(&mut stock, E).last(), Some(&('z', E)));
    assert_eq!((stock.state, stock.reference), (CLOSED, mean(345_002, 4)));
}

#[test]
fn leaving_limit_takes_or_keeps_both_numbers() {
    let mut empty = limit();
    empty.reference = mean(345_000, 3);
    let mut held = empty.clone();
    held.trades = vec![
        Trade {
            time: 1_000,
            price: 115_000
        };
        2
    ];
    let clear = quote(2_000, 7, 0, 0);
    assert_eq!(tell_one(&mut empty, &clear).state, TRADING);
    assert_eq!(empty.reference, mean(345_000, 3));
    assert_eq!(tell_one(&mut held, &clear).state, TRADING);
    assert_eq!(held.reference, mean(230_000, 2));
}

#[test]
fn a_trade_that_ends_waiting_takes_the_window() {
    let mut stock = waiting_late();
    let mut other = stock.clone();
    tell_one(&mut stock, &trade(300_000, 50_000));
    assert_eq!(stock.reference, mean(50_000, 1));
    // A record that no day reaches: a trade is held already.
    other.trades = vec![Trade {
        time: 300_000,
        price: 50_001,
    }];
    let answer = tell_one(&mut other, &trade(300_000, 50_000));
    assert_eq!((answer.state, answer.reference), (TRADING, 50_001));
    assert_eq!(other.reference, mean(100_001, 2));
}

#[test]
fn b12_a_trade_leaves_at_its_time() {
    let mut stock = fresh();
    tell_one(&mut stock, &trade(0, 50_000));
    assert_eq!(settle_all(&mut stock, 299_999), []);
    assert_eq!(stock.trades.len(), 1, "B12");
    assert_eq!(
        settle_all(&mut stock, 300_000),
        [('v', 300_000), ('f', 300_000)]
    );
    assert_eq!((stock.trades.len(), stock.state), (0, WAITING), "B12");
    // Waiting at 300,000 or later: the first trade makes the mean the reference.
    let answer = tell_one(&mut stock, &trade(300_000, 50_000));
    assert_eq!((answer.state, answer.reference), (TRADING, 50_000));
}

#[test]
fn f_opens_with_the_mean() {
    let mut stock = fresh();
    tell_one(&mut stock, &trade(1, 50_000));
    tell_one(&mut stock, &trade(1, 50_001));
    assert_eq!(settle_all(&mut stock, 300_000), [('f', 300_000)]);
    assert_eq!((stock.state, stock.reference), (TRADING, mean(100_001, 2)));
    assert_eq!(read(&[stock.clone()], 0).reference, 50_001);
    assert_eq!((stock.reference_start, stock.hold_ended), (300_000, 0));
    // Both trades of time 1 leave in one moment.
    let notice = settle_one(&mut stock, 300_001);
    assert_eq!((notice.mark, notice.time), (b'v', 300_001));
    assert!(stock.trades.is_empty());
}

#[test]
fn slip_a_pause_is_dated_by_its_moment() {
    let mut stock = limit();
    assert_eq!(
        settle_all(&mut stock, 500_000),
        [('x', 16_000), ('h', 31_000)]
    );
    assert_eq!((stock.state, stock.pause_start), (PAUSED, 16_000));
    assert_eq!(settle_one(&mut stock, 616_000).mark, b'p');
    assert_eq!((stock.reference_start, stock.hold_ended), (616_000, 0));
    // The offer still stands at the lower band, so Limit begins at once.
    assert_eq!((stock.state, stock.limit_entry), (LIMIT, 616_000));
}

#[test]
fn slip_the_close_decides_the_percent() {
    let mut stock = trading();
    (stock.reference, stock.clock) = (Mean::of_price(25_000), 1_000);
    let answer = read(std::slice::from_ref(&stock), 0);
    assert_eq!((answer.lower, answer.upper), (20_000, 30_000));
    stock.setup.close = 7_499;
    let answer = read(std::slice::from_ref(&stock), 0);
    assert_eq!((answer.lower, answer.upper), (22_000, 28_000));
}

#[test]
fn slip_one_rounding_of_the_band() {
    let bands = |price| {
        let mut stock = trading();
        stock.reference = Mean::of_price(price);
        let answer = read(&[stock], 0);
        (answer.lower, answer.upper)
    };
    // 107.20 + 21.44 cents is 128.64; with A rounded first it would be 128.20.
    assert_eq!(bands(10_720), (8_600, 12_900));
    // 106.80 - 21.36 cents is 85.44; with A rounded first it would be 85.80.
    assert_eq!(bands(10_680), (8_500, 12_800));
}

#[test]
fn slip_crossing_does_not_end_limit() {
    let mut stock = limit();
    let answer = tell_one(&mut stock, &quote(2_000, 1, 115_000, 0));
    assert_eq!(
        (answer.state, answer.bid, answer.offer),
        (LIMIT, 115_000, 92_000)
    );
    // In Trading the same quotes do not enter it.
    let mut stock = trading();
    tell_one(&mut stock, &quote(2_000, 1, 92_001, 0));
    let answer = tell_one(&mut stock, &quote(2_000, 7, 0, 92_000));
    assert_eq!((answer.state, answer.offer_flag), (TRADING, 3));
    let answer = tell_one(&mut stock, &quote(2_000, 1, 92_000, 0));
    assert_eq!((answer.state, stock.limit_entry), (LIMIT, 2_000));
    // Flag 3 on the other side does not end it either.
    let answer = tell_one(&mut stock, &quote(3_000, 1, 138_000, 0));
    assert_eq!((answer.bid_flag, answer.offer_flag), (3, 3));
    let answer = tell_one(&mut stock, &quote(4_000, 7, 0, 0));
    assert_eq!((answer.state, stock.limit_entry), (LIMIT, 2_000));
    assert_eq!((answer.bid_flag, answer.offer_flag), (3, 0));
}

#[test]
fn slip_the_bands_stay_in_limit_at_900_000() {
    let mut stock = trading();
    (stock.clock, stock.hold_ended) = (899_000, 1);
    tell_one(&mut stock, &quote(899_000, 7, 0, 92_000));
    assert_eq!(stock.state, LIMIT);
    let notice = settle_one(&mut stock, 900_000);
    assert_eq!((notice.mark, notice.time), (b'w', 900_000));
    assert_eq!(
        (notice.answer.lower, notice.answer.upper),
        (92_000, 138_000)
    );
    // On leaving, k is that of now.
    let answer = tell_one(&mut stock, &quote(901_000, 7, 0, 0));
    assert_eq!((answer.state, answer.reference), (TRADING, 115_000));
    assert_eq!((answer.lower, answer.upper), (103_500, 126_500));
    assert_eq!((stock.reference_start, stock.hold_ended), (901_000, 0));
}

#[test]
fn w_in_trading_moves_the_bands_and_looks_at_the_quotes() {
    let mut stock = trading();
    (stock.clock, stock.hold_ended) = (899_000, 1);
    let answer = tell_one(&mut stock, &quote(899_000, 7, 0, 103_500));
    assert_eq!((answer.state, answer.offer_flag), (TRADING, 1));
    let notice = settle_one(&mut stock, 900_000);
    assert_eq!(
        (notice.answer.lower, notice.answer.upper),
        (103_500, 126_500)
    );
    assert_eq!((stock.state, stock.limit_entry), (LIMIT, 900_000));
    assert_eq!(stock.early_w_done, 1);
}

#[test]
fn leaving_limit_takes_the_mean_and_may_begin_afresh() {
    let mut stock = limit();
    tell_one(&mut stock, &trade(2_000, 100_000));
    assert_eq!((stock.state, stock.reference), (LIMIT, mean(115_000, 1)));
    let answer = tell_one(&mut stock, &quote(3_000, 7, 0, 80_000));
    // 80,000 was below the lower band of Limit, so no side had flag 3; the new band is 80,000.
    assert_eq!((answer.reference, answer.lower), (100_000, 80_000));
    assert_eq!((answer.state, answer.offer_flag), (LIMIT, 3));
    assert_eq!((stock.limit_entry, stock.reference_start), (3_000, 3_000));
}

#[test]
fn quotes_outside_the_bands_are_left_out() {
    let mut stock = trading();
    let answer = tell_one(&mut stock, &quote(2_000, 0, 138_001, 91_999));
    assert_eq!((answer.bid, answer.bid_flag), (0, 0));
    assert_eq!((answer.offer, answer.offer_flag), (0, 0));
    tell_one(&mut stock, &quote(2_000, 1, 91_999, 138_001));
    let answer = read(std::slice::from_ref(&stock), 0);
    assert_eq!((answer.bid, answer.bid_flag), (91_999, 2));
    assert_eq!((answer.offer, answer.offer_flag), (138_001, 2));
    // At the other band a side is plain.
    let answer = tell_one(&mut stock, &quote(2_000, 1, 92_000, 138_000));
    assert_eq!((answer.bid, answer.bid_flag), (92_000, 1));
    assert_eq!((answer.offer, answer.offer_flag), (138_000, 1));
    assert_eq!(answer.state, TRADING);
    // Without bands nothing is left out.
    stock.state = PAUSED;
    let answer = read(std::slice::from_ref(&stock), 0);
    assert_eq!((answer.bid, answer.bid_flag), (138_001, 1));
    assert_eq!((answer.offer, answer.offer_flag), (91_999, 1));
}

#[test]
fn late_pauses() {
    let start = E - 600_000;
    let mut stock = Stock {
        clock: start - 1,
        hold_ended: 1,
        early_w_done: 1,
        late_w_done: 1,
        ..with_low_bid(trading())
    };
    let mut early = stock.clone();
    assert_eq!(
        tell_one(&mut early, &primary(Letter::P, start - 1, 0)).state,
        PAUSED
    );
    assert_eq!(settle_all(&mut early, E), [('p', E - 1), ('z', E)]);
    assert_eq!(
        tell_one(&mut stock, &primary(Letter::P, start, 0)).state,
        LATE_PAUSE
    );
    assert_eq!(settle_all(&mut stock, E + 299_999), []);
    stock.trades = vec![Trade {
        time: E,
        price: 115_000,
    }];
    (stock.clock, stock.offers[4]) = (E, 120_000);
    assert_eq!(settle_all(&mut stock, E + 300_000), [('c', E + 300_000)]);
    assert_eq!((stock.state, stock.reference), (CLOSED, mean(115_000, 1)));
    assert!(stock.trades.is_empty() && stock.offers == [0; PARTICIPANTS]);
    assert_eq!(settle_all(&mut stock, E + 300_000), []);
}

#[test]
fn ties_go_in_order() {
    let mut stock = limit();
    stock.clock = 885_000;
    stock.limit_entry = 885_000;
    stock.reference_start = 870_000;
    stock.trades = vec![
        Trade {
            time: 600_000,
            price: 1
        };
        3
    ];
    let expected = [
        (b'w', 900_000),
        (b'x', 900_000),
        (b'v', 900_000),
        (b'h', 900_000),
        (b'w', E - 1_500_000),
        (b'z', E),
    ];
    assert_eq!(stock.moments(), expected);
    assert_eq!(
        settle_all(&mut stock, 900_000),
        ['w', 'x', 'v', 'h'].map(|mark| (mark, 900_000))
    );
    assert_eq!(stock.moments(), [(b'p', 1_500_000), (b'w', E - 1_500_000)]);
}

#[test]
fn v_before_h_sees_the_hold_unended() {
    let mut stock = trading();
    (stock.clock, stock.reference_start) = (310_000, 300_000);
    stock.trades = vec![
        Trade {
            time: 30_000,
            price: 115_000,
        },
        Trade {
            time: 31_000,
            price: 120_000,
        },
    ];
    let notice = settle_one(&mut stock, 330_000);
    assert_eq!((notice.mark, notice.answer.reference), (b'v', 115_000));
    let notice = settle_one(&mut stock, 330_000);
    assert_eq!((notice.mark, notice.answer.reference), (b'h', 120_000));
    assert_eq!((stock.reference_start, stock.hold_ended), (330_000, 0));
}

#[test]
fn v_tests_in_trading() {
    let mut stock = trading();
    (stock.clock, stock.hold_ended) = (299_000, 1);
    stock.trades = vec![
        Trade {
            time: 1_000,
            price: 115_000,
        },
        Trade {
            time: 299_000,
            price: 117_000,
        },
    ];
    let notice = settle_one(&mut stock, 301_000);
    assert_eq!((notice.mark, notice.answer.reference), (b'v', 117_000));
    assert_eq!((stock.reference_start, stock.hold_ended), (301_000, 0));
}
