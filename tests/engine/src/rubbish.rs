//! Every kind of call on broken records and places.

use bytes::field::{set_wide, CLOCK, COUNT, WIDE};
use bytes::WORDS;
use second::Letter;

use crate::book::{Book, Snapshot};
use crate::breaks;
use crate::exact::set_reference;
use crate::player::Player;
use crate::{totals, Run};

/// How many records of each state are broken number by number, and in each pair of numbers.
const RECORDS: usize = 8;
const BROKEN_FIELDS: usize = 60_000;
const BROKEN_PLACES: usize = 24_000;
const MADE_UP: usize = 60_000;
const ODD_LIMITS: usize = 5_000;
const TIED: usize = 26_000;
const ANY_BYTES: usize = 2_000;
/// How many steps the player takes after a break.
const WALK: usize = 6;

pub fn all(run: &mut Run) {
    for snapshot in run.pool.some(RECORDS) {
        number_by_number(run, &snapshot);
        pair_by_pair(run, &snapshot);
        reference_by_reference(run, &snapshot);
        totals_by_totals(run, &snapshot);
    }
    broken(run);
    made_up(run);
}

/// Valid records, broken at random.
fn broken(run: &mut Run) {
    for _ in 0..BROKEN_FIELDS {
        let mut broken = run.pool.pick(&mut run.chance);
        for _ in 0..run.chance.between(1, 3) {
            breaks::break_field(&mut run.chance, &mut broken);
        }
        try_and_walk(run, broken);
    }
    for _ in 0..BROKEN_PLACES {
        let mut broken = run.pool.pick(&mut run.chance);
        breaks::break_place(&mut run.chance, &mut broken);
        try_and_walk(run, broken);
    }
}

/// Records that were never in a book.
fn made_up(run: &mut Run) {
    for _ in 0..MADE_UP {
        let mut made = breaks::made_up(&mut run.chance);
        if run.chance.one_in(8) {
            breaks::break_field(&mut run.chance, &mut made);
        }
        try_and_walk(run, made);
    }
    for _ in 0..ODD_LIMITS {
        let odd = breaks::odd_limit(&mut run.chance);
        quotes_now(run, &odd);
    }
    for _ in 0..TIED {
        let (tied, target) = breaks::tied(&mut run.chance);
        settle_to(run, &tied, target);
    }
    for _ in 0..ANY_BYTES {
        let mut any = breaks::any(&mut run.chance);
        let held = any.record[COUNT] % 600;
        set_wide(&mut any.record, COUNT, held.into());
        try_and_walk(run, any);
    }
}

/// Each number of 32 bits broken by itself, the halves of wider ones too, and then each number of 64 bits.
fn number_by_number(run: &mut Run, good: &Snapshot) {
    let mut book = Book::new(1);
    book.put(0, good);
    let mut player = Player::new(&mut book, run);
    let mut broken = good.clone();
    for word in 0..WORDS {
        for number in breaks::numbers(&good.record, word) {
            broken.record[word] = number;
            try_all(&mut player, 0, &broken);
        }
        broken.record[word] = good.record[word];
    }
    for field in WIDE {
        for number in breaks::wide_numbers(&good.record, field) {
            set_wide(&mut broken.record, field, number);
            try_all(&mut player, 0, &broken);
        }
        broken.record = good.record;
    }
}

/// Each two numbers of the record broken at once. Those of 64 bits come after those of 32.
fn pair_by_pair(run: &mut Run, good: &Snapshot) {
    let mut book = Book::new(1);
    book.put(0, good);
    let mut player = Player::new(&mut book, run);
    for first in 0..WORDS + WIDE.len() {
        for second in 0..first {
            let mut broken = good.clone();
            for number in [first, second] {
                let chance = &mut player.run.chance;
                match number.checked_sub(WORDS) {
                    Some(place) => breaks::break_wide(chance, &mut broken, WIDE[place]),
                    None => breaks::break_narrow(chance, &mut broken, number),
                }
            }
            try_all(&mut player, 0, &broken);
        }
    }
}

/// The sum and the count of the reference at and past the edges of their range, together.
fn reference_by_reference(run: &mut Run, good: &Snapshot) {
    let mut book = Book::new(1);
    book.put(0, good);
    let mut player = Player::new(&mut book, run);
    let mut broken = good.clone();
    for reference in breaks::references() {
        set_reference(&mut broken.record, reference);
        try_all(&mut player, 0, &broken);
    }
}

/// The totals at and past the edges of their ranges, and the clock with six times that go with it.
fn totals_by_totals(run: &mut Run, good: &Snapshot) {
    let mut book = Book::new(1);
    book.put(0, good);
    let mut player = Player::new(&mut book, run);
    let mut broken = good.clone();
    for record in totals::edges(&good.record) {
        broken.record = record;
        try_all(&mut player, 0, &broken);
    }
    broken.record = good.record;
    for clock in breaks::numbers(&good.record, CLOCK) {
        broken.record[CLOCK] = clock;
        totals::spread(&mut player.run.chance, &mut broken.record);
        try_all(&mut player, 0, &broken);
    }
}

/// Makes every kind of call but setup on this record.
fn try_all(player: &mut Player, stock: usize, broken: &Snapshot) {
    player.book.put(stock, broken);
    player.read(stock);
    player.next(stock);
    player.totals(stock);
    let time = player.time(stock);
    if player.settle_once(stock, time).answer.number == 0 {
        player.book.put(stock, broken);
    }
    for letter in Letter::ALL {
        let time = player.time(stock);
        if player.tell(stock, letter, time).answer.number == 0 {
            player.book.put(stock, broken);
        }
    }
}

/// Makes quotes in the millisecond of the clock; some of them end Limit and begin it again.
fn quotes_now(run: &mut Run, odd: &Snapshot) {
    let mut book = Book::new(1);
    book.put(0, odd);
    let mut player = Player::new(&mut book, run);
    for _ in 0..8 {
        player.book.put(0, odd);
        player.tell(0, Letter::Q, odd.record[CLOCK]);
    }
}

/// Settles all that is due at this time and takes a step.
fn settle_to(run: &mut Run, tied: &Snapshot, target: u32) {
    let mut book = Book::new(1);
    book.put(0, tied);
    let mut player = Player::new(&mut book, run);
    player.settle_all(0, target);
    player.step(0);
}

/// Makes every kind of call on this record, with records of random bytes around it, and then takes a few steps.
fn try_and_walk(run: &mut Run, mut broken: Snapshot) {
    if run.chance.one_in(4) {
        breaks::litter(&mut run.chance, &mut broken);
    }
    let stocks = 1 + run.chance.early(3);
    let stock = run.chance.place(stocks);
    let mut book = Book::new(stocks);
    for other in 0..stocks {
        let any = breaks::any(&mut run.chance);
        book.put(other, if other == stock { &broken } else { &any });
    }
    let mut player = Player::new(&mut book, run);
    try_all(&mut player, stock, &broken);
    for _ in 0..WALK {
        player.step(stock);
    }
}
