//! The plans: what the day of a seed mostly tests.

use second::Setup;

use crate::chance::Chance;
use crate::player::Player;
use crate::prices;
use crate::tape::Tape;

pub struct Plan {
    /// The approximate time of the first messages; 0 is the beginning of the day.
    pub start: u32,
    /// The stocks' first messages come at most this long before `start`.
    pub spread: u32,
    /// The day ends once it has this many messages.
    pub messages: usize,
    /// Participants below this number quote.
    pub crowd: u32,
    /// The greatest time between messages without an aim.
    pub pace: u32,
    /// Times farther away than this are seldom aimed at.
    pub leap: u32,
    /// One burst of trades in this many fills the window.
    pub few_bursts: u32,
    /// Weights of the moves: aim at ties, act at edges of time, act soon, send a wrong message, send a burst of trades, quote at later bands.
    pub weights: [u32; 6],
}

/// A player who is ready to play the day of this seed.
pub fn begin(seed: u64) -> Player {
    let mut chance = Chance::new(seed);
    let end = end(&mut chance);
    let start = start(&mut chance, end);
    let (plan, stocks) = plan(&mut chance, start);
    let setups = (0..stocks).map(|_| setup(&mut chance)).collect();
    Player::new(chance, Tape::new(setups, end), plan)
}

/// A session's end: at the ends of its range, next to them, or in between.
fn end(chance: &mut Chance) -> u32 {
    match chance.below(6) {
        0 | 1 => 3_600_000,
        2 => 23_400_000,
        3 => chance.pick(&[3_600_001, 23_399_999]),
        4 => chance.between(3_600_000, 5_000_000),
        _ => chance.between(3_600_000, 23_400_000),
    }
}

/// The plan's `start` and `spread`: at the beginning of the day, just after f, or some time before an
/// event that all stocks share.
fn start(chance: &mut Chance, end: u32) -> (u32, u32) {
    let goal = match chance.below(8) {
        0..=2 => return (0, 1),
        3 => return (300_001, 3),
        4 => 900_000,
        5 => end - 1_500_000,
        6 => end - 600_000,
        _ => end,
    };
    let before = chance.pick(&[50_000, 320_000, 340_000, 700_000]);
    (goal - before, 40_000)
}

fn setup(chance: &mut Chance) -> Setup {
    let tier = chance.between(1, 2);
    Setup {
        tier,
        leverage: if tier == 1 { 1 } else { chance.between(1, 3) },
        primary: chance.below(16),
        close: prices::close(chance),
    }
}

/// A plan and a number of stocks.
fn plan(chance: &mut Chance, (start, spread): (u32, u32)) -> (Plan, u32) {
    let mut plan = Plan {
        start,
        spread,
        messages: chance.between(50, 500) as usize,
        crowd: chance.pick(&[1, 2, 2, 3, 4, 16]),
        pace: chance.pick(&[500, 5_000, 40_000]),
        leap: chance.pick(&[20_000, 100_000, 700_000]),
        few_bursts: 400,
        weights: [6, 4, 5, 2, 1, 3],
    };
    if chance.one_in(40) {
        // A day that is longer than any buffer.
        plan.messages = 6_000;
        plan.pace = 500;
        plan.leap = 20_000;
        plan.weights = [1, 1, 40, 4, 0, 1];
        return (plan, 8);
    }
    let stocks = match chance.below(8) {
        // Ties: plans far ahead, on few stocks.
        0 | 1 => {
            plan.weights = [12, 4, 2, 1, 0, 2];
            chance.between(1, 3)
        }
        // Quotes: Limit begins and ends often within a short time.
        2 => {
            plan.weights = [1, 3, 10, 1, 0, 6];
            plan.pace = 5_000;
            chance.between(1, 2)
        }
        // Full windows.
        3 => {
            plan.messages = chance.between(900, 1_500) as usize;
            plan.few_bursts = 3;
            plan.weights = [4, 4, 4, 1, 2, 2];
            chance.between(1, 2)
        }
        // Refusals.
        4 => {
            plan.weights = [3, 3, 3, 8, 1, 1];
            chance.between(1, 8)
        }
        // Everything, on many stocks.
        5 => {
            plan.messages = chance.between(300, 1_000) as usize;
            chance.between(3, 8)
        }
        // Everything, on few stocks.
        _ => chance.between(1, 4),
    };
    (plan, stocks)
}
