//! Differential test: makes the same calls on the library and on the byte reader, on many books, and
//! compares each result and every byte. A seed may be named; the default seed is fixed.
//! tests/engine/run starts it, and checks that enough calls were made.

mod arguments;
mod book;
mod breaks;
mod chance;
mod counted;
mod exact;
mod library;
mod player;
mod pool;
mod prices;
mod report;
mod rubbish;
mod setups;
mod shapes;
mod tally;
mod times;
mod totals;

use std::process::ExitCode;

use chance::Chance;
use pool::Pool;
use tally::Tally;

/// The state that all parts of the test share.
pub struct Run {
    pub chance: Chance,
    pub tally: Tally,
    pub pool: Pool,
}

/// A kind of book, and the function that plays it.
type Part = (&'static str, fn(&mut Run));

/// The kinds of book, in the order of play. The last three start from records that the earlier ones reached.
const PARTS: [Part; 5] = [
    ("shapes", shapes::all),
    ("reachable", player::all),
    ("made-totals", totals::all),
    ("arguments", arguments::all),
    ("rubbish", rubbish::all),
];

fn main() -> ExitCode {
    let seed = std::env::args().nth(1).map(|text| text.parse());
    let Ok(seed) = seed.unwrap_or(Ok(1)) else {
        eprintln!("usage: engine_differ [seed]");
        return ExitCode::FAILURE;
    };
    let mut run = Run {
        chance: Chance::new(seed),
        tally: Tally::default(),
        pool: Pool::default(),
    };
    for (part, play) in PARTS {
        run.tally.begin(part);
        play(&mut run);
    }
    if run.tally.print() {
        ExitCode::SUCCESS
    } else {
        ExitCode::FAILURE
    }
}
