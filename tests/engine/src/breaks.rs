//! Ways to break a record: numbers at the edges of the rules, random numbers, whole random records.

use bytes::field::*;
use bytes::{PLACES, WORDS};
use second::LIMIT;

use crate::book::Snapshot;
use crate::chance::Chance;
use crate::exact::{reference, set_reference};
use crate::prices::HIGHEST;
use crate::{setups, totals};

/// Numbers at the end of some field's range, or just past it.
const EDGES: [u32; 27] = [
    0,
    1,
    2,
    3,
    4,
    5,
    6,
    7,
    15,
    16,
    511,
    512,
    513,
    299_999,
    300_000,
    300_001,
    899_999,
    900_000,
    3_599_999,
    3_600_000,
    23_400_000,
    23_400_001,
    HIGHEST,
    HIGHEST + 1,
    i32::MAX as u32,
    i32::MAX as u32 + 1,
    u32::MAX,
];

/// Counts at the end of their range and past it, also with other high halves. The eleventh is the least whose highest sum does not fit 64 bits.
const COUNTS: [u64; 13] = [
    0,
    1,
    2,
    3,
    511,
    512,
    513,
    u32::MAX as u64,
    1 << 32,
    (1 << 32) + 1,
    u64::MAX / HIGHEST as u64 + 1,
    1 << 63,
    u64::MAX,
];

/// Sums at the edges of the range that a count allows, and past them.
fn sums(count: u64) -> [u64; 13] {
    let highest = count.wrapping_mul(HIGHEST.into());
    [
        0,
        1,
        count.wrapping_sub(1),
        count,
        count.wrapping_add(1),
        highest.wrapping_sub(1),
        highest,
        highest.wrapping_add(1),
        u32::MAX.into(),
        1 << 32,
        count.wrapping_add(1 << 32),
        1 << 63,
        u64::MAX,
    ]
}

/// Each of these counts with each of its sums.
pub fn references() -> impl Iterator<Item = (u64, u64)> {
    let with_sums = |count| sums(count).map(|sum| (sum, count));
    COUNTS.into_iter().flat_map(with_sums)
}

/// The greatest allowed distances of stored times before the clock.
const LEADS: [u32; 5] = [0, 15_000, 30_000, 300_000, 600_000];

/// Numbers to put into this word of a record.
pub fn numbers(record: &[u32; WORDS], word: usize) -> Vec<u32> {
    let mut numbers = match word {
        BIDS..COUNT => vec![0, 1, HIGHEST - 1, HIGHEST, HIGHEST + 1, u32::MAX],
        SPENT.. => totals::numbers(record, word),
        _ => edges(record),
    };
    numbers.retain(|&number| number != record[word]);
    numbers
}

/// Numbers to put into this field of 64 bits.
pub fn wide_numbers(record: &[u32; WORDS], field: usize) -> Vec<u64> {
    let number = wide(record, field);
    let (sum, count) = reference(record);
    let mut numbers = match field {
        REFERENCE_SUM => sums(count).to_vec(),
        _ => COUNTS.to_vec(),
    };
    if field == REFERENCE_COUNT {
        // The least count that allows this sum, and the greatest.
        for edge in [sum.div_ceil(HIGHEST.into()), sum] {
            numbers.extend([edge.wrapping_sub(1), edge, edge.wrapping_add(1)]);
        }
    }
    numbers.extend([number.wrapping_sub(1), number.wrapping_add(1)]);
    numbers.extend([number | 1 << 32, number | 1 << 63, number.rotate_left(32)]);
    numbers.retain(|&other| other != number);
    numbers
}

/// The edges of all ranges, including those that depend on the session's end and on the clock.
fn edges(record: &[u32; WORDS]) -> Vec<u32> {
    let mut edges = EDGES.to_vec();
    let end = record[END];
    for edge in [
        end.wrapping_sub(1_500_000),
        end.wrapping_sub(600_000),
        end,
        end.wrapping_add(300_000),
    ] {
        edges.extend(beside(edge));
    }
    for lead in LEADS {
        edges.extend(beside(record[CLOCK].wrapping_sub(lead)));
    }
    edges
}

fn beside(number: u32) -> [u32; 3] {
    [number.wrapping_sub(1), number, number.wrapping_add(1)]
}

/// Puts another number into one field, or others into the reference or the totals. All quotes together are chosen as often as one other
/// field.
pub fn break_field(chance: &mut Chance, snapshot: &mut Snapshot) {
    let place = chance.place(BIDS + 7);
    match place.checked_sub(BIDS) {
        None => break_word(chance, snapshot, place),
        Some(0) => {
            let quote = BIDS + chance.place(COUNT - BIDS);
            break_word(chance, snapshot, quote);
        }
        Some(1) => {
            let half = COUNT + chance.place(2);
            break_word(chance, snapshot, half);
        }
        Some(2) => {
            let field = chance.pick(&WIDE);
            break_wide(chance, snapshot, field);
        }
        Some(3) => set_reference(&mut snapshot.record, some_reference(chance)),
        Some(4) => {
            let total = SPENT + chance.place(WORDS - SPENT);
            break_word(chance, snapshot, total);
        }
        Some(5) => totals::make_up(chance, &mut snapshot.record),
        Some(_) => totals::break_times(chance, &mut snapshot.record),
    }
}

/// Puts a number of the rules' edges or a random one into this word.
fn break_word(chance: &mut Chance, snapshot: &mut Snapshot, word: usize) {
    if chance.one_in(8) {
        snapshot.record[word] = chance.any();
    } else {
        break_narrow(chance, snapshot, word);
    }
}

/// Puts a number of the rules' edges into this word. If it is the clock, the six times mostly go with it, so that other rules decide.
pub fn break_narrow(chance: &mut Chance, snapshot: &mut Snapshot, word: usize) {
    snapshot.record[word] = chance.pick(&numbers(&snapshot.record, word));
    if word == CLOCK && !chance.one_in(4) {
        totals::spread(chance, &mut snapshot.record);
    }
}

/// Puts a number of the rules' edges into this field of 64 bits.
pub fn break_wide(chance: &mut Chance, snapshot: &mut Snapshot, field: usize) {
    let number = chance.pick(&wide_numbers(&snapshot.record, field));
    set_wide(&mut snapshot.record, field, number);
}

/// Puts another number into one of the 512 places, mostly one that is in use or just behind those.
pub fn break_place(chance: &mut Chance, snapshot: &mut Snapshot) {
    let count = wide(&snapshot.record, COUNT).min(PLACES as u64 - 1) as usize;
    let place = match chance.below(8) {
        0 => 0,
        1 => count,
        2 => count.saturating_sub(1),
        3 => PLACES - 1,
        4 => chance.place(PLACES),
        _ => chance.place(count + 1),
    };
    if chance.one_in(3) {
        let prices = [0, 1, HIGHEST, HIGHEST + 1, u32::MAX, chance.any()];
        snapshot.prices[place] = chance.pick(&prices);
    } else {
        snapshot.times[place] = time_beside(chance, snapshot, place);
    }
}

/// A time at an edge of the range for the trade at this place.
fn time_beside(chance: &mut Chance, snapshot: &Snapshot, place: usize) -> u32 {
    match chance.below(4) {
        0 => chance.pick(&edges(&snapshot.record)),
        1 => chance.about(snapshot.record[CLOCK]),
        2 => chance.about(snapshot.times[place.saturating_sub(1)]),
        _ => chance.about(snapshot.times[(place + 1).min(PLACES - 1)]),
    }
}

/// Puts random numbers into the unused places, which does not make the record rubbish.
pub fn litter(chance: &mut Chance, snapshot: &mut Snapshot) {
    let count = wide(&snapshot.record, COUNT).min(PLACES as u64) as usize;
    snapshot.times[count..].fill_with(|| chance.any());
    snapshot.prices[count..].fill_with(|| chance.any());
}

/// Random bytes.
pub fn any(chance: &mut Chance) -> Snapshot {
    Snapshot {
        record: std::array::from_fn(|_| chance.any()),
        times: std::array::from_fn(|_| chance.any()),
        prices: std::array::from_fn(|_| chance.any()),
    }
}

/// Fields that are each in range but may contradict each other, so that some of these records are rubbish.
pub fn made_up(chance: &mut Chance) -> Snapshot {
    let mut made = any(chance);
    let record = &mut made.record;
    record[TIER..END].copy_from_slice(&setups::one(chance));
    record[END] = setups::end(chance);
    record[STATE] = chance.below(6);
    let clock = made_up_clock(chance, record[END]);
    record[CLOCK] = clock;
    let mut before = |most: u32| match chance.below(3) {
        0 => clock,
        _ => clock.saturating_sub(chance.below(most)),
    };
    record[ENTRY] = before(16_000);
    record[PAUSE] = before(620_000);
    record[START] = before(31_000);
    record[EARLY] = chance.below(3);
    record[HOLD] = chance.below(3);
    set_reference(record, made_up_reference(chance));
    let seldom = chance.pick(&[2, 8, 32]);
    for quote in &mut record[BIDS..COUNT] {
        *quote = chance.below(200_000) * u32::from(chance.one_in(seldom));
    }
    totals::make_up(chance, record);
    make_up_trades(chance, &mut made);
    made
}

/// Limit without quotes or trades, whose reference has started just now with an odd marker.
pub fn odd_limit(chance: &mut Chance) -> Snapshot {
    let mut odd = made_up(chance);
    let record = &mut odd.record;
    record[STATE] = LIMIT;
    set_reference(record, some_reference(chance));
    record[START] = record[CLOCK];
    record[HOLD] = 2;
    record[BIDS..SPENT].fill(0);
    odd
}

/// A record most of whose moments are at one time, and that time. Some of these ties never occur in a day.
pub fn tied(chance: &mut Chance) -> (Snapshot, u32) {
    let mut tied = made_up(chance);
    let record = &mut tied.record;
    let end = record[END];
    let any = chance.between(0, end + 300_000);
    let targets = [300_000, 900_000, end - 1_500_000, end, end + 300_000, any];
    let target = chance.pick(&targets);
    record[CLOCK] = target.saturating_sub(chance.below(10_000));
    totals::spread(chance, record);
    set_reference(record, some_reference(chance));
    for (field, lead) in [(ENTRY, 15_000), (PAUSE, 600_000), (START, 30_000)] {
        let early = chance.below(4) / 3;
        record[field] = (target + early).saturating_sub(lead);
    }
    make_up_trades(chance, &mut tied);
    let oldest = target.saturating_sub(300_000);
    let held = wide(&tied.record, COUNT) as usize;
    for time in &mut tied.times[..held] {
        *time = oldest.max(*time);
    }
    tied.times[0] = oldest;
    (tied, target)
}

/// A reference in range, seldom none.
fn made_up_reference(chance: &mut Chance) -> (u64, u64) {
    if chance.one_in(64) {
        (0, 0)
    } else {
        some_reference(chance)
    }
}

/// A reference in range. Its count is mostly more than 1 and does not divide its sum.
fn some_reference(chance: &mut Chance) -> (u64, u64) {
    let most = chance.pick(&[1, 2, 8, 512]);
    let count = u64::from(chance.between(1, most));
    if chance.one_in(4) {
        return (beside_half_cent(chance, count), count);
    }
    let highest = highest_price(chance);
    let price = u64::from(chance.between(1, highest - 1));
    (count * price + u64::from(chance.below(most)) % count, count)
}

/// A sum of this many prices for which a band lies at half a cent or just beside it, if the spread is the one chosen here.
fn beside_half_cent(chance: &mut Chance, count: u64) -> u64 {
    let percent = chance.pick(&[5, 10, 20, 40, 60]);
    let hundredths = chance.pick(&[100 - percent, 100 + percent]);
    let half_cent = 10_000 * u64::from(chance.below(2_000)) + 5_000;
    half_cent * count / hundredths + u64::from(chance.below(2))
}

/// The highest price of a made-up reference or window. Of some, the sum needs more than 32 bits.
fn highest_price(chance: &mut Chance) -> u32 {
    chance.pick(&[200_000, 200_000, 200_000, HIGHEST])
}

/// A clock that is often a little after a change of k, so that Limit may have begun before the change.
fn made_up_clock(chance: &mut Chance, end: u32) -> u32 {
    match chance.below(4) {
        0 => 900_000 + chance.below(15_000),
        1 => end - 1_500_000 + chance.below(15_000),
        _ => chance.between(0, end + 300_000),
    }
}

/// No trade, a few or some hundreds, in order and not after the clock.
fn make_up_trades(chance: &mut Chance, made: &mut Snapshot) {
    let clock = made.record[CLOCK];
    let count = chance.early(10) * chance.place(57);
    set_wide(&mut made.record, COUNT, count as u64);
    made.times[..count].fill_with(|| clock.saturating_sub(chance.below(300_001)));
    made.times[..count].sort_unstable();
    let highest = highest_price(chance);
    made.prices[..count].fill_with(|| chance.between(1, highest));
}
