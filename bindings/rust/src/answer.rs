//! What calls on a book return.

use crate::{raw, Flag, Mark, Number, State, StateTimes, HIGHEST_PRICE, VERSION};
use std::{error, fmt};

/// A stock's values.
#[non_exhaustive]
#[derive(Clone, Copy, Debug, PartialEq, Eq)]
pub struct Answer {
    /// The stock's state.
    pub state: State,
    /// The reference price, if there is one, rounded to a whole number; a half goes up. The bands are worked out from the exact one,
    /// whose sum and count the stock's record has (`raw::Record`).
    pub reference: Option<u32>,
    /// The bands in force; there are none outside `Trading` and `Limit`.
    pub bands: Option<Bands>,
    /// The best bid, if there is one.
    pub bid: Option<Quote>,
    /// The best offer, if there is one.
    pub offer: Option<Quote>,
}

/// The prices between which a stock may trade.
#[derive(Clone, Copy, Debug, PartialEq, Eq)]
pub struct Bands {
    /// The lowest price, which may be 0.
    pub lower: u32,
    /// The highest price, which may lie above the range of prices.
    pub upper: u32,
}

/// A best bid or a best offer.
#[non_exhaustive]
#[derive(Clone, Copy, Debug, PartialEq, Eq)]
pub struct Quote {
    /// Its price.
    pub price: u32,
    /// How it stands to the bands.
    pub flag: Flag,
}

/// A moment that settling did.
#[non_exhaustive]
#[derive(Clone, Copy, Debug, PartialEq, Eq)]
pub struct Notice {
    /// Which moment it is.
    pub mark: Mark,
    /// When it happened, which may be before the time that was settled to.
    pub time: u32,
    /// The stock's values after it.
    pub answer: Answer,
}

/// A moment that is still to come.
#[non_exhaustive]
#[derive(Clone, Copy, Debug, PartialEq, Eq)]
pub struct Moment {
    /// Which moment it is.
    pub mark: Mark,
    /// When it is due.
    pub time: u32,
}

/// A stock's day totals, as of its last accepted message or settled moment.
#[non_exhaustive]
#[derive(Clone, Copy, Debug, PartialEq, Eq)]
pub struct Totals {
    /// How long the stock was in each state. The time since the last accepted call is in none of them.
    pub spent: StateTimes,
    /// How many limit states began; the count stops at `u32::MAX`.
    pub limit_states: u32,
    /// How many pauses began, late ones too; the count stops at `u32::MAX`.
    pub pauses: u32,
    /// The highest price of an accepted trade, if there was one; openings and reopenings do not count.
    pub highest: Option<u32>,
    /// The lowest price of an accepted trade, if there was one; openings and reopenings do not count.
    pub lowest: Option<u32>,
}

/// A call that was refused, and changed nothing.
#[non_exhaustive]
#[derive(Clone, Copy, Debug, PartialEq, Eq)]
pub struct Refusal {
    /// The reason, which is never `Done`.
    pub number: Number,
    /// The stock's values, which the call did not change; `None` after `Rubbish`, `BadSetup` and `NoStock`, which are about no stock.
    pub answer: Option<Answer>,
}

/// Why a book could not be made.
#[non_exhaustive]
#[derive(Clone, Copy, Debug, PartialEq, Eq)]
pub enum Error {
    /// The linked library has this version instead of [`VERSION`], so calling it would not be safe.
    OtherVersion(u32),
    /// The setup was refused.
    Refused(Refusal),
}

impl Answer {
    /// Whether a trade at this price may be made now. In `Waiting` every price from 1 to [`HIGHEST_PRICE`] may trade, in `Trading` and
    /// `Limit` those from the lower band to the upper band, both included, and in every other state none.
    #[must_use]
    pub fn may_trade(&self, price: u32) -> bool {
        let allowed = match self.state {
            State::Waiting => true,
            State::Trading | State::Limit => self.bands.map_or(false, |bands| bands.contain(price)),
            _ => false,
        };
        allowed && (1..=HIGHEST_PRICE).contains(&price)
    }
}

impl Bands {
    /// Whether a price lies between the bands, both included.
    #[must_use]
    pub fn contain(&self, price: u32) -> bool {
        (self.lower..=self.upper).contains(&price)
    }
}

impl Quote {
    fn of(price: u32, flag: u32) -> Option<Quote> {
        let flag = flag.into();
        (price != 0).then_some(Quote { price, flag })
    }
}

impl Moment {
    /// The moment that the library gives, if there is one.
    pub(crate) fn coming(raw: raw::Upcoming) -> Result<Option<Moment>, Refusal> {
        let raw::Upcoming { number, mark, time } = raw;
        let mark = mark.into();
        match number.into() {
            Number::Done => Ok((mark != Mark::NoMoment).then_some(Moment { mark, time })),
            number => Err(Refusal::of(number)),
        }
    }
}

impl Refusal {
    /// Whether a trade at this price may be made now, by what the stock is. No price may trade if the refusal is about no stock, or
    /// is [`Unsettled`](Number::Unsettled): then a moment is due that may pause the stock.
    #[must_use]
    pub fn may_trade(&self, price: u32) -> bool {
        let answer = self.answer.filter(|_| self.number != Number::Unsettled);
        answer.map_or(false, |answer| answer.may_trade(price))
    }

    /// A refusal that is about no stock.
    pub(crate) const fn of(number: Number) -> Refusal {
        let answer = None;
        Refusal { number, answer }
    }
}

impl TryFrom<raw::Answer> for Answer {
    type Error = Refusal;

    fn try_from(raw: raw::Answer) -> Result<Answer, Refusal> {
        let raw::Answer { lower, upper, .. } = raw;
        let answer = Answer {
            state: raw.state.into(),
            reference: (raw.reference != 0).then_some(raw.reference),
            // An upper band in force is at least 100.
            bands: (upper != 0).then_some(Bands { lower, upper }),
            bid: Quote::of(raw.bid, raw.bid_flag),
            offer: Quote::of(raw.offer, raw.offer_flag),
        };
        match Number::from(raw.number) {
            Number::Done => Ok(answer),
            number => Err(Refusal {
                number,
                answer: number.has_stock().then_some(answer),
            }),
        }
    }
}

impl TryFrom<raw::Notice> for Notice {
    type Error = Refusal;

    fn try_from(raw: raw::Notice) -> Result<Notice, Refusal> {
        let answer = raw.answer.try_into()?;
        Ok(Notice {
            mark: raw.mark.into(),
            time: raw.time,
            answer,
        })
    }
}

impl TryFrom<raw::Summary> for Totals {
    type Error = Refusal;

    fn try_from(raw: raw::Summary) -> Result<Totals, Refusal> {
        let price = |price| (price != 0).then_some(price);
        match raw.number.into() {
            Number::Done => Ok(Totals {
                spent: raw.totals.spent,
                limit_states: raw.totals.limit_states,
                pauses: raw.totals.pauses,
                highest: price(raw.totals.highest),
                lowest: price(raw.totals.lowest),
            }),
            number => Err(Refusal::of(number)),
        }
    }
}

impl From<Refusal> for Error {
    fn from(refusal: Refusal) -> Error {
        Error::Refused(refusal)
    }
}

impl fmt::Display for Refusal {
    fn fmt(&self, out: &mut fmt::Formatter<'_>) -> fmt::Result {
        self.number.fmt(out)
    }
}

impl fmt::Display for Error {
    fn fmt(&self, out: &mut fmt::Formatter<'_>) -> fmt::Result {
        match self {
            Error::OtherVersion(library) => write!(
                out,
                "the library is of version {library}, and these bindings are for version {VERSION}"
            ),
            Error::Refused(refusal) => refusal.fmt(out),
        }
    }
}

impl error::Error for Refusal {}

impl error::Error for Error {}
