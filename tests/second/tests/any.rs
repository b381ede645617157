//! Any record and any call: nothing breaks, refusals change nothing, reached books stay good.

use second::*;

/// A small generator of numbers, the same on every run.
struct Dice(u64);

impl Dice {
    fn next(&mut self) -> u32 {
        self.0 = self
            .0
            .wrapping_mul(6_364_136_223_846_793_005)
            .wrapping_add(1_442_695_040_888_963_407);
        (self.0 >> 32) as u32
    }

    fn below(&mut self, bound: u32) -> u32 {
        self.next() % bound
    }

    fn one_in(&mut self, bound: u32) -> bool {
        self.below(bound) == 0
    }

    /// A number near an edge of some rule, or any number.
    fn any(&mut self) -> u32 {
        const EDGES: [u32; 15] = [
            0,
            1,
            5,
            15,
            512,
            30_000,
            300_000,
            600_000,
            900_000,
            2_100_000,
            3_600_000,
            3_900_000,
            23_400_000,
            999_999_999,
            u32::MAX,
        ];
        if self.one_in(3) {
            self.next()
        } else {
            let edge = EDGES[self.below(EDGES.len() as u32) as usize];
            edge.wrapping_add(self.below(5)).wrapping_sub(2)
        }
    }

    fn letter(&mut self) -> Letter {
        Letter::ALL[self.below(6) as usize]
    }

    fn any_message(&mut self) -> Message {
        Message {
            letter: self.letter(),
            stock: self.below(2),
            time: self.any(),
            participant: self.any(),
            price: self.any(),
            bid: self.any(),
            offer: self.any(),
        }
    }

    fn any_stock(&mut self) -> Stock {
        let one = Setup {
            tier: 2,
            leverage: 1 + self.below(3),
            primary: self.below(16),
            close: 1 + self.below(60_000),
        };
        let mut stock = setup(&[one], 3_600_000).unwrap().remove(0);
        stock.state = self.below(6);
        stock.reference = self.good_mean();
        for field in [
            &mut stock.clock,
            &mut stock.reference_start,
            &mut stock.limit_entry,
            &mut stock.pause_start,
        ] {
            *field = self.below(3_900_001);
        }
        for marker in [
            &mut stock.hold_ended,
            &mut stock.early_w_done,
            &mut stock.late_w_done,
            &mut stock.f_done,
        ] {
            *marker = self.below(2);
        }
        for quote in stock.bids.iter_mut().chain(&mut stock.offers) {
            *quote = self.below(100_000) * self.below(2);
        }
        for _ in 0..self.below(4) {
            let back = self.below(300_000);
            stock.trades.push(Trade {
                time: stock.clock.saturating_sub(back),
                price: 1 + self.below(100_000),
            });
        }
        stock.trades.sort_by_key(|trade| trade.time);
        for _ in 0..self.below(3) {
            self.spoil(&mut stock);
        }
        stock
    }

    /// A mean of 1 to 511 prices up to 100,000, mostly a fraction.
    fn good_mean(&mut self) -> Mean {
        let count = u64::from(1 + self.below(4) * self.below(171));
        let sum = count * u64::from(1 + self.below(99_999)) + u64::from(self.next()) % count;
        Mean { sum, count }
    }

    /// Any sum and count, or a sum at an edge of what a count allows, or one off it.
    fn any_mean(&mut self) -> Mean {
        let count = u64::from(self.any());
        let edge = count * [1, 999_999_999][self.below(2) as usize];
        let sum = match self.below(3) {
            0 => u64::from(self.any()) << self.below(33),
            _ => (edge + u64::from(self.below(3))).wrapping_sub(1),
        };
        Mean { sum, count }
    }

    /// Puts any number into one of the fields.
    fn spoil(&mut self, stock: &mut Stock) {
        let any = self.any();
        let place = self.below(16) as usize;
        match self.below(18) {
            0 => stock.setup.tier = any,
            1 => stock.setup.leverage = any,
            2 => stock.setup.primary = any,
            3 => stock.setup.close = any,
            4 => stock.end = any,
            5 => stock.state = any,
            6 => stock.clock = any,
            7 => stock.reference = self.any_mean(),
            8 => stock.reference_start = any,
            9 => stock.hold_ended = any,
            10 => stock.limit_entry = any,
            11 => stock.pause_start = any,
            12 => stock.early_w_done = any,
            13 => stock.late_w_done = any,
            14 => stock.f_done = any,
            15 => stock.bids[place] = any,
            16 => stock.offers[place] = any,
            _ => {
                let trade = Trade {
                    time: self.any(),
                    price: any,
                };
                let copies = if self.one_in(20) { 513 } else { 1 };
                stock.trades.extend([trade].repeat(copies));
            }
        }
    }
}

/// Calls that must not break on any record; a refusal leaves all as it stood.
#[test]
fn any_record() {
    let mut dice = Dice(1);
    let mut seen = [0; 17];
    for _ in 0..100_000 {
        let mut book = vec![dice.any_stock()];
        let before = book.clone();
        book[0].moments();
        let m = dice.any_message();
        let answer = tell(&mut book, &m);
        seen[answer.number as usize] += 1;
        assert!(answer.number == 0 || book == before);
        assert_eq!(answer.number == 1, m.stock == 0 && before[0].is_rubbish());
        let before = book.clone();
        let notice = settle(&mut book, dice.below(2), dice.any());
        seen[notice.answer.number as usize] += 1;
        assert!(notice.answer.number == 0 || book == before);
        assert_eq!(notice.answer.number == 0, notice.mark != 0);
        read(&book, dice.any());
    }
    for number in [0, 1, 3, 4, 5, 6, 14] {
        assert!(seen[number] > 0, "{number} was seen: {seen:?}");
    }
}

/// A message near what the stock may take, so that all states are reached.
fn likely(dice: &mut Dice, stock: &Stock) -> Message {
    let far = match dice.below(40) {
        0 => 3_000_000,
        1 => 700_000,
        2..=6 => 60_000,
        _ => 3_000,
    };
    let about = |dice: &mut Dice| {
        let middle = match stock.reference.rounded() {
            0 => stock.setup.close,
            reference => reference,
        };
        let width = middle / 8 + 2;
        (middle + dice.below(2 * width))
            .saturating_sub(width)
            .max(1)
    };
    let answer = read(std::slice::from_ref(stock), 0);
    let bid = match dice.below(8) {
        0 => answer.upper,
        1 => 0,
        2 => answer.lower.saturating_sub(1),
        _ => about(dice),
    };
    let offer = match dice.below(8) {
        0 => answer.lower,
        1 => 0,
        2 => answer.upper + 1,
        _ => about(dice),
    };
    let letter = match dice.below(10) {
        0..=3 => Letter::T,
        4..=7 => Letter::Q,
        _ => dice.letter(),
    };
    let quote = letter == Letter::Q;
    Message {
        letter,
        stock: 0,
        time: stock.clock + dice.below(far),
        participant: if quote {
            dice.below(16)
        } else {
            stock.setup.primary
        },
        price: about(dice),
        bid,
        offer,
    }
}

/// From setup on, no record becomes rubbish and every moment comes as it was foretold.
#[test]
fn reached_books_stay_good() {
    let mut dice = Dice(2);
    let mut states = [0; 6];
    let mut numbers = [0; 17];
    let mut fractions = 0;
    for _ in 0..3_000 {
        let tier = 1 + dice.below(2);
        let one = Setup {
            tier,
            leverage: if tier == 1 { 1 } else { 1 + dice.below(3) },
            primary: dice.below(16),
            close: [30, 7_499, 25_000, 115_000][dice.below(4) as usize],
        };
        let end = 3_600_000 + dice.below(500_000);
        let mut book = setup(&[one], end).unwrap();
        for _ in 0..100 {
            let m = likely(&mut dice, &book[0]);
            loop {
                let first = book[0].moments().first().copied();
                let notice = settle(&mut book, 0, m.time);
                numbers[notice.answer.number as usize] += 1;
                if notice.answer.number != 0 {
                    assert!(first.is_none_or(|(_, time)| time > m.time || m.time > end + 300_000));
                    break;
                }
                assert_eq!(first, Some((notice.mark, notice.time)));
                assert_eq!(book[0].clock, notice.time);
            }
            let answer = tell(&mut book, &m);
            numbers[answer.number as usize] += 1;
            states[answer.state as usize] += 1;
            assert!(!book[0].is_rubbish(), "{:?}", book[0]);
            assert!(answer.number != 1 && answer.number != 6);
            let Mean { sum, count } = book[0].reference;
            fractions += u32::from(count != 0 && sum % count != 0);
            let w_done = [900_000, end - 1_500_000].map(|time| u32::from(book[0].clock >= time));
            assert_eq!([book[0].early_w_done, book[0].late_w_done], w_done);
        }
    }
    assert!(states.iter().all(|&count| count > 0), "{states:?}");
    assert!(fractions > 0, "no reference was a fraction");
    for number in [0, 4, 7, 9, 10, 11, 12, 14, 15, 16] {
        assert!(numbers[number] > 0, "{numbers:?}");
    }
}
