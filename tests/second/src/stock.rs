//! One stock's record: what is kept, its ranges, its rubbish, its quotes and its states.

use crate::band::{self, Mean};

pub const WAITING: u32 = 0;
pub const TRADING: u32 = 1;
pub const LIMIT: u32 = 2;
pub const PAUSED: u32 = 3;
pub const LATE_PAUSE: u32 = 4;
pub const CLOSED: u32 = 5;

/// Participants are numbered 0 to 15.
pub const PARTICIPANTS: usize = 16;
/// A stock holds at most this many trades.
pub const HELD_AT_MOST: usize = 512;

const PRICE_AT_MOST: u32 = 999_999_999;
const STOCKS_AT_MOST: usize = 64;

/// One stock's setup.
#[derive(Clone, Copy, Debug, PartialEq, Eq)]
pub struct Setup {
    pub tier: u32,
    pub leverage: u32,
    pub primary: u32,
    pub close: u32,
}

/// One trade of the window.
#[derive(Clone, Copy, Debug, PartialEq, Eq)]
pub struct Trade {
    pub time: u32,
    pub price: u32,
}

/// One stock's record; a marker is 0 or not 0, and what a state does not use is left as it stood.
#[derive(Clone, Debug, PartialEq, Eq)]
pub struct Stock {
    pub setup: Setup,
    /// Session end E.
    pub end: u32,
    pub state: u32,
    /// Time of the last accepted message or settled moment.
    pub clock: u32,
    /// A count of 0 is none.
    pub reference: Mean,
    pub reference_start: u32,
    /// Marker: the moment h of this reference has happened.
    pub hold_ended: u32,
    /// Time of the last entry into Limit.
    pub limit_entry: u32,
    /// Time of the last start of a pause.
    pub pause_start: u32,
    /// Marker: the moment w of 900,000 has happened.
    pub early_w_done: u32,
    /// Marker: the moment w of E - 1,500,000 has happened.
    pub late_w_done: u32,
    /// Marker: the moment f has happened.
    pub f_done: u32,
    /// Each participant's bid, 0 when absent.
    pub bids: [u32; PARTICIPANTS],
    /// Each participant's offer, 0 when absent.
    pub offers: [u32; PARTICIPANTS],
    /// The window, oldest trade first.
    pub trades: Vec<Trade>,
}

/// What a call gives back.
#[derive(Clone, Copy, Debug, Default, PartialEq, Eq)]
pub struct Answer {
    pub number: u32,
    pub state: u32,
    pub reference: u32,
    pub lower: u32,
    pub upper: u32,
    pub bid: u32,
    pub bid_flag: u32,
    pub offer: u32,
    pub offer_flag: u32,
}

/// What settling gives back: mark and time are 0 when no moment was done.
#[derive(Clone, Copy, Debug, Default, PartialEq, Eq)]
pub struct Notice {
    pub answer: Answer,
    pub mark: u8,
    pub time: u32,
}

/// Starts the whole book; its checks are 1, for the shape alone, and 2.
pub fn setup(setups: &[Setup], end: u32) -> Result<Vec<Stock>, u32> {
    if setups.is_empty() || setups.len() > STOCKS_AT_MOST {
        return Err(1);
    }
    if !end_in_range(end) || !setups.iter().all(setup_in_range) {
        return Err(2);
    }
    Ok(setups.iter().map(|setup| Stock::new(setup, end)).collect())
}

/// The answer 0 with the stock's values as they stand, or 1 or 3 with zeros.
pub fn read(book: &[Stock], stock: u32) -> Answer {
    match check_shape(book.len(), stock) {
        Ok(index) if book[index].is_rubbish() => Answer::zeros(1),
        Ok(index) => book[index].answer(0),
        Err(number) => Answer::zeros(number),
    }
}

/// The stock a call names, after checks 1 (shape, this stock's rubbish) and 3.
pub(crate) fn lend(book: &mut [Stock], stock: u32) -> Result<&mut Stock, u32> {
    let index = check_shape(book.len(), stock)?;
    if book[index].is_rubbish() {
        Err(1)
    } else {
        Ok(&mut book[index])
    }
}

/// The stock's place in the book; a number that is too large names no stock, so no rubbish.
fn check_shape(stocks: usize, stock: u32) -> Result<usize, u32> {
    if stocks == 0 || stocks > STOCKS_AT_MOST {
        return Err(1);
    }
    match usize::try_from(stock) {
        Ok(index) if index < stocks => Ok(index),
        _ => Err(3),
    }
}

pub fn end_in_range(end: u32) -> bool {
    (3_600_000..=23_400_000).contains(&end)
}

/// The tier, the leverage (in tier 1 only 1), the primary and the close are each in range.
pub fn setup_in_range(setup: &Setup) -> bool {
    let leverage_at_most = match setup.tier {
        1 => 1,
        2 => 3,
        _ => return false,
    };
    (1..=leverage_at_most).contains(&setup.leverage)
        && participant_in_range(setup.primary)
        && price_in_range(setup.close)
}

pub(crate) fn price_in_range(price: u32) -> bool {
    (1..=PRICE_AT_MOST).contains(&price)
}

/// In a quote, 0 means that side is absent.
pub(crate) fn quote_in_range(price: u32) -> bool {
    price <= PRICE_AT_MOST
}

pub(crate) fn participant_in_range(participant: u32) -> bool {
    participant < PARTICIPANTS as u32
}

impl Answer {
    pub(crate) fn zeros(number: u32) -> Answer {
        Answer {
            number,
            ..Answer::default()
        }
    }
}

impl Stock {
    /// A stock at its start: Waiting, no quotes, no trades, everything else 0.
    fn new(setup: &Setup, end: u32) -> Stock {
        Stock {
            setup: *setup,
            end,
            state: WAITING,
            clock: 0,
            reference: Mean::default(),
            reference_start: 0,
            hold_ended: 0,
            limit_entry: 0,
            pause_start: 0,
            early_w_done: 0,
            late_w_done: 0,
            f_done: 0,
            bids: [0; PARTICIPANTS],
            offers: [0; PARTICIPANTS],
            trades: Vec::with_capacity(HELD_AT_MOST),
        }
    }

    /// Times run to E + 300,000.
    pub(crate) fn time_in_range(&self, time: u32) -> bool {
        time <= self.end.saturating_add(300_000)
    }

    /// Document 01's list of rubbish, in its order.
    pub fn is_rubbish(&self) -> bool {
        self.state > CLOSED
            || !setup_in_range(&self.setup)
            || !end_in_range(self.end)
            || !self.kept_times_in_range()
            || !self.quotes_in_range()
            || !self.reference_in_range()
            || (self.state == PAUSED && self.is_late(self.pause_start))
            || self.trades.len() > HELD_AT_MOST
            || !self.trades_in_range()
            || !self.trades_in_order()
            || self.has_missed_moment()
    }

    fn kept_times_in_range(&self) -> bool {
        [
            self.clock,
            self.reference_start,
            self.limit_entry,
            self.pause_start,
        ]
        .into_iter()
        .all(|time| self.time_in_range(time))
    }

    fn quotes_in_range(&self) -> bool {
        let mut quotes = self.bids.iter().chain(&self.offers);
        quotes.all(|&price| quote_in_range(price))
    }

    /// Its sum is one that so many prices can have, and states 1 to 4 must have one.
    fn reference_in_range(&self) -> bool {
        let Mean { sum, count } = self.reference;
        let needed = (TRADING..=LATE_PAUSE).contains(&self.state);
        count <= HELD_AT_MOST as u64
            && (count..=u64::from(PRICE_AT_MOST) * count).contains(&sum)
            && (count != 0 || !needed)
    }

    /// Every held trade, all of them looked at, in range and not after the clock.
    fn trades_in_range(&self) -> bool {
        self.trades.iter().fold(true, |good, trade| {
            good & price_in_range(trade.price)
                & self.time_in_range(trade.time)
                & (trade.time <= self.clock)
        })
    }

    /// No held trade before the trade ahead of it.
    fn trades_in_order(&self) -> bool {
        let pairs = self.trades.windows(2);
        pairs.fold(true, |good, pair| good & (pair[0].time <= pair[1].time))
    }

    /// A pause is a Late pause from E - 600,000 on.
    fn is_late(&self, pause_start: u32) -> bool {
        pause_start >= self.end - 600_000
    }

    /// The answer with this number and the stock's values.
    pub(crate) fn answer(&self, number: u32) -> Answer {
        let (lower, upper) = self.bands().unwrap_or((0, 0));
        let (bid, bid_flag) = self.best_bid();
        let (offer, offer_flag) = self.best_offer();
        Answer {
            number,
            state: self.state,
            reference: self.reference.rounded(),
            lower,
            upper,
            bid,
            bid_flag,
            offer,
            offer_flag,
        }
    }

    /// The bands in force: in Trading k is that of the clock, in Limit that of the entry's time.
    pub(crate) fn bands(&self) -> Option<(u32, u32)> {
        let time = match self.state {
            TRADING => self.clock,
            LIMIT => self.limit_entry,
            _ => return None,
        };
        let width = band::width(self.setup.tier, self.setup.close);
        let k = band::factor(self.setup.leverage, self.end, time);
        Some(band::bands(self.reference, width, k))
    }

    /// The highest present bid not above the upper band in force, and its flag.
    pub(crate) fn best_bid(&self) -> (u32, u32) {
        let (lower, upper) = self.bands().unwrap_or((0, u32::MAX));
        let bids = self.bids.iter().copied();
        let bid = bids.filter(|&bid| bid <= upper).max().unwrap_or(0);
        let flag = match bid {
            0 => 0,
            _ if bid == upper => 3,
            _ if bid < lower => 2,
            _ => 1,
        };
        (bid, flag)
    }

    /// The lowest present offer not below the lower band in force, and its flag.
    pub(crate) fn best_offer(&self) -> (u32, u32) {
        let (lower, upper) = self.bands().unwrap_or((0, u32::MAX));
        let offers = self.offers.iter().copied().filter(|&offer| offer != 0);
        let offer = offers.filter(|&offer| offer >= lower).min().unwrap_or(0);
        let flag = match offer {
            0 => 0,
            _ if offer == lower => 3,
            _ if offer > upper => 2,
            _ => 1,
        };
        (offer, flag)
    }

    /// A straddle: flag 2 on a side.
    pub(crate) fn is_straddle(&self) -> bool {
        self.best_bid().1 == 2 || self.best_offer().1 == 2
    }

    /// The state rules: Trading may enter Limit, Limit may end; no other state looks at quotes.
    pub(crate) fn look_at_quotes(&mut self) {
        match self.state {
            TRADING => self.enter_limit_if_due(),
            LIMIT => self.leave_limit_if_due(),
            _ => {}
        }
    }

    /// From Trading to Limit, if flag 3 is on a side and the quotes do not cross.
    fn enter_limit_if_due(&mut self) {
        let (bid, bid_flag) = self.best_bid();
        let (offer, offer_flag) = self.best_offer();
        let crosses = bid_flag != 0 && offer_flag != 0 && bid > offer;
        if (bid_flag == 3 || offer_flag == 3) && !crosses {
            self.state = LIMIT;
            self.limit_entry = self.clock;
        }
    }

    /// Ends Limit if flag 3 is on no side; it may begin again at once.
    fn leave_limit_if_due(&mut self) {
        if self.best_bid().1 != 3 && self.best_offer().1 != 3 {
            let reference = Mean::of_trades(&self.trades).unwrap_or(self.reference);
            self.trade_on(reference);
        }
    }

    /// Trading with this reference from now; a new start always brings a new hold.
    /// The quotes are looked at again.
    pub(crate) fn trade_on(&mut self, reference: Mean) {
        self.state = TRADING;
        self.reference = reference;
        self.reference_start = self.clock;
        self.hold_ended = 0;
        self.enter_limit_if_due();
    }

    /// The Test: in Trading, with hold ended, a mean far enough becomes the reference.
    pub(crate) fn test(&mut self) {
        if self.state != TRADING || self.hold_ended == 0 {
            return;
        }
        if let Some(mean) = Mean::of_trades(&self.trades) {
            if mean.is_far_from(self.reference) {
                self.trade_on(mean);
            }
        }
    }

    /// If the window isn't empty, its mean is the first reference.
    pub(crate) fn trade_on_mean(&mut self) {
        if let Some(mean) = Mean::of_trades(&self.trades) {
            self.trade_on(mean);
        }
    }

    /// A pause starts at this time, late or not.
    pub(crate) fn pause(&mut self, start: u32) {
        self.pause_start = start;
        self.state = if self.is_late(start) {
            LATE_PAUSE
        } else {
            PAUSED
        };
    }

    /// Closed empties window and quotes and leaves the reference.
    pub(crate) fn close(&mut self) {
        self.state = CLOSED;
        self.bids = [0; PARTICIPANTS];
        self.offers = [0; PARTICIPANTS];
        self.trades.clear();
    }
}
