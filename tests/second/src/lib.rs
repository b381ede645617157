//! A second, independent reading of the rule book (document 01, as the requests of document 02 that
//! have landed change it), worked out plainly.
//!
//! `band` is document 01's "Band arithmetic", `stock` its ranges, quotes, states and rubbish,
//! `moments` its "Moments", `messages` its "Messages" and "Numbers given back";
//! `lines` and `day` are its "The day program". `totals` is the day totals of request R-4.

#![forbid(unsafe_code)]

mod band;
pub mod day;
pub mod lines;
mod messages;
mod moments;
mod stock;
pub mod totals;

pub use band::{factor, width, Mean, Width};
pub use messages::{tell, Letter, Message};
pub use moments::settle;
pub use stock::{
    end_in_range, read, setup, setup_in_range, Answer, Notice, Setup, Stock, Trade, CLOSED,
    HELD_AT_MOST, LATE_PAUSE, LIMIT, PARTICIPANTS, PAUSED, TRADING, WAITING,
};
