//! The library's functions and structs: include/sumpheron.h in Rust.
//!
//! [`Book`](crate::Book) calls them safely. Each array is passed as a pointer and a length. No pointer may be null, each must be aligned
//! and have as many elements as its length says, and no two arrays of one call may overlap. Calls on one book must not run concurrently;
//! only [`sumpheron_read`], [`sumpheron_next`] and [`sumpheron_totals`] may run concurrently with each other.

#![allow(clippy::too_many_arguments)]

use crate::PARTICIPANTS;

/// A stock's record: docs/RECORD.md says what each field holds. It has 240 bytes, no padding, and is aligned to 8.
#[non_exhaustive]
#[repr(C)]
#[derive(Clone, Copy, Debug, Default, PartialEq, Eq)]
pub struct Record {
    /// The tier.
    pub tier: u32,
    /// The leverage.
    pub leverage: u32,
    /// The primary participant.
    pub primary: u32,
    /// The previous close.
    pub close: u32,
    /// The session's end.
    pub session_end: u32,
    /// The state's number.
    pub state: u32,
    /// The time of the last accepted message or settled moment.
    pub clock: u32,
    /// Not 0: the moment f has not happened.
    pub f_to_come: u32,
    /// When Limit was last entered.
    pub limit_entry: u32,
    /// When a pause last started.
    pub pause_start: u32,
    /// The sum of the prices whose mean is the reference price, 0 for none. The reference is this sum divided by `reference_count`, and
    /// not rounded.
    pub reference_sum: u64,
    /// How many prices the sum is of, 0 for none.
    pub reference_count: u64,
    /// Since when it has been the reference.
    pub reference_start: u32,
    /// Not 0: the moment h of this start has not happened.
    pub h_to_come: u32,
    /// The bid of each participant, 0 for none.
    pub bids: [u32; PARTICIPANTS],
    /// The offer of each participant, 0 for none.
    pub offers: [u32; PARTICIPANTS],
    /// How many trades are held.
    pub trades: u64,
    /// The day totals.
    pub totals: DayTotals,
}

/// How long a stock was in each state, in milliseconds. The six times add up to the stock's clock.
#[non_exhaustive]
#[repr(C)]
#[derive(Clone, Copy, Debug, Default, PartialEq, Eq)]
pub struct StateTimes {
    /// In Waiting.
    pub waiting: u32,
    /// In Trading.
    pub trading: u32,
    /// In Limit.
    pub limit: u32,
    /// In Paused.
    pub paused: u32,
    /// In Late pause.
    pub late_pause: u32,
    /// In Closed.
    pub closed: u32,
}

/// What a stock's day has come to, up to its last accepted call.
#[non_exhaustive]
#[repr(C)]
#[derive(Clone, Copy, Debug, Default, PartialEq, Eq)]
pub struct DayTotals {
    /// How long the stock was in each state.
    pub spent: StateTimes,
    /// How many limit states began; the count stops at the highest number of 32 bits.
    pub limit_states: u32,
    /// How many pauses began, late ones too; the count stops at the highest number of 32 bits.
    pub pauses: u32,
    /// The highest price of an accepted trade (T), 0 for none.
    pub highest: u32,
    /// The lowest price of an accepted trade (T), 0 for none.
    pub lowest: u32,
}

/// What a call returns.
#[non_exhaustive]
#[repr(C)]
#[derive(Clone, Copy, Debug, Default, PartialEq, Eq)]
pub struct Answer {
    /// The number of [`Number`](crate::Number).
    pub number: u32,
    /// The number of [`State`](crate::State).
    pub state: u32,
    /// The reference price, rounded to a whole number (a half goes up), 0 for none.
    pub reference: u32,
    /// The lower band in force, 0 for none.
    pub lower: u32,
    /// The upper band in force, 0 for none.
    pub upper: u32,
    /// The best bid, 0 for none.
    pub bid: u32,
    /// The number of its [`Flag`](crate::Flag).
    pub bid_flag: u32,
    /// The best offer, 0 for none.
    pub offer: u32,
    /// The number of its [`Flag`](crate::Flag).
    pub offer_flag: u32,
}

impl Answer {
    /// Its nine numbers, in the order of the fields.
    #[must_use]
    pub const fn numbers(&self) -> [u32; 9] {
        [
            self.number,
            self.state,
            self.reference,
            self.lower,
            self.upper,
            self.bid,
            self.bid_flag,
            self.offer,
            self.offer_flag,
        ]
    }
}

/// What settling returns.
#[non_exhaustive]
#[repr(C)]
#[derive(Clone, Copy, Debug, Default, PartialEq, Eq)]
pub struct Notice {
    /// The number, and the stock's values after the call.
    pub answer: Answer,
    /// The number of the [`Mark`](crate::Mark) of the moment that was done, 0 if none was.
    pub mark: u32,
    /// When it happened, 0 if none was done.
    pub time: u32,
}

/// A stock's earliest moment that is still to come.
#[non_exhaustive]
#[repr(C)]
#[derive(Clone, Copy, Debug, Default, PartialEq, Eq)]
pub struct Upcoming {
    /// The number of [`Number`](crate::Number).
    pub number: u32,
    /// The number of its [`Mark`](crate::Mark), 0 for none.
    pub mark: u32,
    /// When it is due.
    pub time: u32,
}

/// A stock's day totals.
#[non_exhaustive]
#[repr(C)]
#[derive(Clone, Copy, Debug, Default, PartialEq, Eq)]
pub struct Summary {
    /// The number of [`Number`](crate::Number).
    pub number: u32,
    /// The totals, all 0 if the number is not 0.
    pub totals: DayTotals,
}

extern "C" {
    /// The version of the library. The declarations here are right only if it is [`VERSION`](crate::VERSION).
    pub fn sumpheron_version() -> u32;

    /// Initializes the whole book: stock i gets the tier, leverage, primary and close that begin at
    /// [`SETUP_NUMBERS`](crate::SETUP_NUMBERS) times i in `setups`.
    pub fn sumpheron_setup(
        book: *mut Record,
        stocks: usize,
        times: *mut u32,
        times_length: usize,
        prices: *mut u32,
        prices_length: usize,
        end: u32,
        setups: *const u32,
        setups_length: usize,
    ) -> Answer;

    /// Does the stock's earliest moment if it is due by `time`.
    pub fn sumpheron_settle(
        book: *mut Record,
        stocks: usize,
        times: *mut u32,
        times_length: usize,
        prices: *mut u32,
        prices_length: usize,
        stock: u32,
        time: u32,
    ) -> Notice;

    /// Returns the stock's present values, and changes nothing.
    pub fn sumpheron_read(
        book: *const Record,
        stocks: usize,
        times: *const u32,
        times_length: usize,
        prices: *const u32,
        prices_length: usize,
        stock: u32,
    ) -> Answer;

    /// Returns the stock's earliest moment that is still to come, and changes nothing.
    pub fn sumpheron_next(
        book: *const Record,
        stocks: usize,
        times: *const u32,
        times_length: usize,
        prices: *const u32,
        prices_length: usize,
        stock: u32,
    ) -> Upcoming;

    /// Returns the stock's day totals, and changes nothing.
    pub fn sumpheron_totals(
        book: *const Record,
        stocks: usize,
        times: *const u32,
        times_length: usize,
        prices: *const u32,
        prices_length: usize,
        stock: u32,
    ) -> Summary;

    /// T: an eligible trade.
    pub fn sumpheron_trade(
        book: *mut Record,
        stocks: usize,
        times: *mut u32,
        times_length: usize,
        prices: *mut u32,
        prices_length: usize,
        stock: u32,
        time: u32,
        price: u32,
    ) -> Answer;

    /// Q: a participant's bid and offer; a price of 0 means no bid, or no offer.
    pub fn sumpheron_quote(
        book: *mut Record,
        stocks: usize,
        times: *mut u32,
        times_length: usize,
        prices: *mut u32,
        prices_length: usize,
        stock: u32,
        time: u32,
        participant: u32,
        bid: u32,
        offer: u32,
    ) -> Answer;

    /// O: the primary's opening price.
    pub fn sumpheron_opening(
        book: *mut Record,
        stocks: usize,
        times: *mut u32,
        times_length: usize,
        prices: *mut u32,
        prices_length: usize,
        stock: u32,
        time: u32,
        participant: u32,
        price: u32,
    ) -> Answer;

    /// P: the primary declares a pause, while a side has flag 2 (non-executable).
    pub fn sumpheron_pause(
        book: *mut Record,
        stocks: usize,
        times: *mut u32,
        times_length: usize,
        prices: *mut u32,
        prices_length: usize,
        stock: u32,
        time: u32,
        participant: u32,
    ) -> Answer;

    /// R: the primary reopens a paused stock.
    pub fn sumpheron_reopening(
        book: *mut Record,
        stocks: usize,
        times: *mut u32,
        times_length: usize,
        prices: *mut u32,
        prices_length: usize,
        stock: u32,
        time: u32,
        participant: u32,
        price: u32,
    ) -> Answer;

    /// X: the primary's closing.
    pub fn sumpheron_closing(
        book: *mut Record,
        stocks: usize,
        times: *mut u32,
        times_length: usize,
        prices: *mut u32,
        prices_length: usize,
        stock: u32,
        time: u32,
        participant: u32,
        price: u32,
    ) -> Answer;
}
