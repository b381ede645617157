//! Which prices of a stock may trade now, and whether it may trade at all, under the National Market System Plan to Address
//! Extraordinary Market Volatility (limit up, limit down).
//!
//! A [`Book`] holds 1 to 64 stocks for one trading day. Tell it the messages of the tape: each call returns an [`Answer`] with the
//! stock's state, reference price, bands and best quotes, which says whether a price [may trade](Answer::may_trade). A bad call returns
//! a [`Refusal`], with the [`Number`] that gives the reason, and changes nothing.
//!
//! A price is a number of ten-thousandths of a dollar, from 1 to 999,999,999. A time is a number of milliseconds since the session
//! began. Before each message, settle the stock to the message's time: this does the moments that are due by then, such as the end of a
//! pause or of the day.
//!
//! ```
//! use sumpheron::{Book, Error, Flag, Mark, Number, Setup, State};
//!
//! # fn main() -> Result<(), Error> {
//! // A stock of tier 2 and leverage 1, which participant 2 lists and which closed at 11.50 dollars the day before.
//! let mut book = Book::new(23_400_000, &[Setup::new(2, 1, 2, 115_000)])?;
//! let mut notices = Vec::new();
//!
//! book.settle_all(0, 1_000, |notice| notices.push(notice))?;
//! let answer = book.opening(0, 1_000, 2, 115_000)?;
//! assert!(answer.may_trade(92_000) && answer.may_trade(138_000));
//! assert!(!answer.may_trade(91_999) && !answer.may_trade(138_001));
//!
//! // An offer at the lower band, and no bid above it: a limit state, which leads to a pause if it lasts 15 seconds.
//! book.settle_all(0, 4_000, |notice| notices.push(notice))?;
//! let answer = book.quote(0, 4_000, 7, 0, 92_000)?;
//! assert_eq!(answer.state, State::Limit);
//! assert_eq!(answer.offer.map(|offer| offer.flag), Some(Flag::Limit));
//!
//! let answer = book.settle_all(0, 319_000, |notice| notices.push(notice))?;
//! assert!(answer.state == State::Paused && !answer.may_trade(115_000));
//! assert_eq!((notices[0].mark, notices[0].time), (Mark::X, 19_000));
//!
//! // Only the exchange that lists the stock reopens it.
//! let refusal = book.reopening(0, 319_000, 5, 95_000).unwrap_err();
//! assert_eq!(refusal.number, Number::NotPrimary);
//! book.reopening(0, 319_000, 2, 95_000)?;
//!
//! book.settle_all(0, 319_500, |notice| notices.push(notice))?;
//! let refusal = book.trade(0, 319_500, 120_000).unwrap_err();
//! assert_eq!(refusal.number, Number::OutsideBands);
//! let bands = refusal.answer.and_then(|stock| stock.bands);
//! assert_eq!(bands.map(|bands| bands.upper), Some(114_000));
//! # Ok(())
//! # }
//! ```

#![deny(missing_docs)]

mod answer;
mod book;
mod numbers;
pub mod raw;

pub use answer::{Answer, Bands, Error, Moment, Notice, Quote, Refusal, Totals};
pub use book::{Book, Setup};
pub use numbers::{Flag, Mark, Number, State};
pub use raw::StateTimes;

/// The library version that these bindings are for: SUMPHERON_VERSION of the header.
pub const VERSION: u32 = 5;
/// A book has at most this many stocks.
pub const MOST_STOCKS: usize = 64;
/// Each stock owns this many places of the trade times and of the trade prices: those of stock i begin at `PLACES * i`.
pub const PLACES: usize = 512;
/// A setup's list has this many numbers for each stock: tier, leverage, primary participant, previous close.
pub const SETUP_NUMBERS: usize = 4;
/// Participants are numbered from 0 to one less than this.
pub const PARTICIPANTS: usize = 16;
/// The highest price; the lowest is 1.
pub const HIGHEST_PRICE: u32 = 999_999_999;
