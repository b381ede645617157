//! Storms: one stock gets many messages, and its price runs to a band.

use std::ops::Range;

use generate::chance::Chance;
use sumpheron::{raw, MOST_STOCKS};

/// A storm turns after at most LONGEST milliseconds, and ends AFTERMATH milliseconds after its turn.
const LONGEST: u32 = 40_000;
const AFTERMATH: u32 = 8_000;
/// A session's storms, in their order.
const WAYS: [Way; 5] = [Way::Fall, Way::Rise, Way::Widen, Way::Rise, Way::Fall];

#[derive(Clone, Copy, PartialEq, Eq)]
enum Way {
    /// Offers come down to the lower band.
    Fall,
    /// Bids go up to the upper band.
    Rise,
    /// Bids stay below the lower band, so that the primary can declare a pause.
    Widen,
}

/// A storm, with its begin, turn and end in milliseconds.
pub struct Storm {
    pub stock: u32,
    from: u32,
    turn: u32,
    to: u32,
    way: Way,
}

/// A session's storms: one in each fifth of the session, each in a random stock.
pub fn all(chance: &mut Chance, end: u32) -> Vec<Storm> {
    let part = end / WAYS.len() as u32;
    let begins = (0..end).step_by(part as usize);
    let storm = |(begins, way)| one(chance, begins..begins + part, way);
    begins.zip(WAYS).map(storm).collect()
}

/// A storm within a part of the session. Some turn before a limit state becomes a pause, and some after.
fn one(chance: &mut Chance, part: Range<u32>, way: Way) -> Storm {
    let from = chance.between(part.start, part.end - LONGEST - AFTERMATH);
    let turn = from + chance.between(5_000, LONGEST);
    Storm {
        stock: chance.below(MOST_STOCKS as u32),
        from,
        turn,
        to: turn + AFTERMATH,
        way,
    }
}

impl Storm {
    pub fn blows(&self, time: u32) -> bool {
        (self.from..self.to).contains(&time)
    }

    /// The price that the storm runs to while there are bands: one percent past a band, and after its turn the reference.
    pub fn goal(&self, time: u32, now: &raw::Answer) -> Option<u32> {
        let past = |band: u32, percent: u64| (u64::from(band) * percent / 100).max(1_000) as u32;
        match self.way {
            Way::Widen => None,
            _ if time >= self.turn => Some(now.reference),
            Way::Fall => Some(past(now.lower, 99)),
            Way::Rise => Some(past(now.upper, 101)),
        }
    }

    pub fn widens(&self, time: u32) -> bool {
        self.way == Way::Widen && time < self.turn
    }
}
