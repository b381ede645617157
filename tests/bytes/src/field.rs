//! The index of each field among a record's numbers of 32 bits.
//!
//! A field of 64 bits is two of these numbers, the low half first: `wide` reads it, `set_wide` writes it.

/// A record is this many numbers of 32 bits.
pub const WORDS: usize = 60;

pub const TIER: usize = 0;
pub const LEVERAGE: usize = 1;
pub const PRIMARY: usize = 2;
pub const CLOSE: usize = 3;
pub const END: usize = 4;
pub const STATE: usize = 5;
pub const CLOCK: usize = 6;
pub const EARLY: usize = 7;
pub const ENTRY: usize = 8;
pub const PAUSE: usize = 9;
/// The sum of the reference, of 64 bits.
pub const REFERENCE_SUM: usize = 10;
/// The count of the reference, of 64 bits.
pub const REFERENCE_COUNT: usize = 12;
pub const START: usize = 14;
pub const HOLD: usize = 15;
/// The first of sixteen bids.
pub const BIDS: usize = 16;
/// The first of sixteen offers.
pub const OFFERS: usize = 32;
/// How many trades are held, of 64 bits.
pub const COUNT: usize = 48;
/// The first of the six state times, in the order of the states. They and the four numbers behind them are the day totals.
pub const SPENT: usize = 50;
pub const LIMIT_STATES: usize = 56;
pub const PAUSES: usize = 57;
pub const HIGHEST_TRADE: usize = 58;
pub const LOWEST_TRADE: usize = 59;

/// The fields of 64 bits.
pub const WIDE: [usize; 3] = [REFERENCE_SUM, REFERENCE_COUNT, COUNT];

/// A field of 64 bits.
pub fn wide(record: &[u32; WORDS], field: usize) -> u64 {
    u64::from(record[field]) | u64::from(record[field + 1]) << 32
}

/// Writes a field of 64 bits.
pub fn set_wide(record: &mut [u32; WORDS], field: usize, number: u64) {
    record[field] = number as u32;
    record[field + 1] = (number >> 32) as u32;
}

/// The names of the numbers in front of the quotes, and of those behind them.
const FRONT: [&str; BIDS] = [
    "tier",
    "leverage",
    "primary",
    "close",
    "end",
    "state",
    "clock",
    "early",
    "entry",
    "pause",
    "reference sum",
    "reference sum, high half",
    "reference count",
    "reference count, high half",
    "start",
    "hold",
];
const BACK: [&str; WORDS - COUNT] = [
    "count",
    "count, high half",
    "time in waiting",
    "time in trading",
    "time in limit",
    "time in paused",
    "time in late pause",
    "time in closed",
    "limit states",
    "pauses",
    "highest trade",
    "lowest trade",
];

/// The name of the field that this number of a record belongs to.
pub fn name(word: usize) -> String {
    match word {
        0..BIDS => FRONT[word].to_string(),
        BIDS..OFFERS => format!("bids[{}]", word - BIDS),
        OFFERS..COUNT => format!("offers[{}]", word - OFFERS),
        _ => BACK[word - COUNT].to_string(),
    }
}
