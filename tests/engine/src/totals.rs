//! Day totals to put into records: sound ones that a day hardly reaches, and broken ones.

use bytes::field::*;
use bytes::WORDS;

use crate::book::Book;
use crate::chance::Chance;
use crate::player::Player;
use crate::prices::HIGHEST;
use crate::Run;

const STATES: usize = LIMIT_STATES - SPENT;
const BOOKS: usize = 6_000;
/// How many steps the player takes in each book.
const STEPS: usize = 30;

/// Counts at both ends of their range.
const COUNTS: [u32; 6] = [0, 1, 1 << 31, u32::MAX - 2, u32::MAX - 1, u32::MAX];
/// Prices at both ends of their range and past it.
const PRICES: [u32; 6] = [0, 1, HIGHEST - 1, HIGHEST, HIGHEST + 1, u32::MAX];

/// Plays on from records that were reached, with other totals that are sound.
pub fn all(run: &mut Run) {
    for _ in 0..BOOKS {
        let mut start = run.pool.pick(&mut run.chance);
        make_up(&mut run.chance, &mut start.record);
        let mut book = Book::new(1);
        book.put(0, &start);
        let mut player = Player::new(&mut book, run);
        for _ in 0..STEPS {
            player.step(0);
        }
        player.totals(0);
    }
}

/// Totals in their ranges: six times that add up to the clock, and the other four often at an end.
pub fn make_up(chance: &mut Chance, record: &mut [u32; WORDS]) {
    spread(chance, record);
    for count in [LIMIT_STATES, PAUSES] {
        record[count] = chance.pick(&COUNTS);
    }
    for price in [HIGHEST_TRADE, LOWEST_TRADE] {
        let prices = [0, 1, HIGHEST, chance.below(HIGHEST), chance.below(200_000)];
        record[price] = chance.pick(&prices);
    }
}

/// Divides the clock among some of the six states.
pub fn spread(chance: &mut Chance, record: &mut [u32; WORDS]) {
    let mut rest = record[CLOCK];
    record[SPENT..LIMIT_STATES].fill(0);
    for _ in 0..chance.below(9) {
        let time = chance.between(0, rest);
        record[SPENT + chance.place(STATES)] += time;
        rest -= time;
    }
    record[SPENT + chance.place(STATES)] += rest;
}

/// Six times that miss the clock by one, or that add up to it only if the sum wraps.
pub fn break_times(chance: &mut Chance, record: &mut [u32; WORDS]) {
    spread(chance, record);
    let state = SPENT + chance.place(STATES);
    match chance.below(3) {
        0 => record[state] = record[state].wrapping_add(1),
        1 => record[state] = record[state].wrapping_sub(1),
        _ => {
            let clock = record[CLOCK];
            record[SPENT..LIMIT_STATES].fill_with(|| chance.any());
            let off = clock.wrapping_sub(wrapping_sum(record));
            record[state] = record[state].wrapping_add(off);
        }
    }
}

/// The sum of a record's six times, as a wrapping addition gives it.
pub fn wrapping_sum(record: &[u32; WORDS]) -> u32 {
    let times = record[SPENT..LIMIT_STATES].iter();
    times.fold(0, |sum, &time| sum.wrapping_add(time))
}

/// Numbers to put into this word of the totals.
pub fn numbers(record: &[u32; WORDS], word: usize) -> Vec<u32> {
    let (clock, stood) = (record[CLOCK], record[word]);
    match word {
        LIMIT_STATES | PAUSES => COUNTS.to_vec(),
        HIGHEST_TRADE | LOWEST_TRADE => PRICES.to_vec(),
        _ => vec![
            0,
            clock,
            stood.wrapping_sub(1),
            stood.wrapping_add(1),
            stood ^ 1 << 31,
            u32::MAX,
        ],
    }
}

/// The record with totals at the edges of the rules and past them: the six times together, both counts, and both prices.
pub fn edges(record: &[u32; WORDS]) -> Vec<[u32; WORDS]> {
    let with = |first: usize, numbers: &[u32]| {
        let mut record = *record;
        record[first..first + numbers.len()].copy_from_slice(numbers);
        record
    };
    let times = times(record[CLOCK]);
    let mut edges: Vec<_> = times.iter().map(|times| with(SPENT, times)).collect();
    for (first, numbers) in [(LIMIT_STATES, COUNTS), (HIGHEST_TRADE, PRICES)] {
        for one in numbers {
            edges.extend(numbers.map(|other| with(first, &[one, other])));
        }
    }
    edges
}

/// Six times that add up to the clock, that miss it by one, and that add up to it only if the sum wraps, once or more often.
fn times(clock: u32) -> Vec<[u32; STATES]> {
    let mut all = Vec::new();
    for one in 0..STATES {
        let mut alone = [0; STATES];
        for time in [clock, clock.wrapping_sub(1), clock.wrapping_add(1)] {
            alone[one] = time;
            all.push(alone);
        }
        for other in (0..STATES).filter(|&other| other != one) {
            for part in [clock / 2, 1 << 31, u32::MAX] {
                let mut parts = [0; STATES];
                parts[one] = part;
                parts[other] = clock.wrapping_sub(part);
                all.push(parts);
            }
        }
    }
    for wraps in 1..STATES {
        let mut often = [0; STATES];
        often[..wraps].fill(u32::MAX);
        often[wraps] = clock.wrapping_add(wraps as u32);
        all.push(often);
    }
    all
}
