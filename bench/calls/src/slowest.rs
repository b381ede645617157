//! Finds the slowest single call of each kind over generated days. The time of a call is the least of all rounds, so that disturbances of
//! the machine do not count. The time of a kind is the greatest of its calls.

use std::hint::black_box;

use calls::call::{Call, Given, Glance, See};
use calls::clock::Stopwatch;
use calls::sides::{Library, Second, Side};

use crate::days::{self, Day};
use crate::timing;

/// The seeds of the days are 1 to this number.
const DAYS: u64 = 40;
/// How often each side plays all days, one side after the other.
const ROUNDS: usize = 100;

const KINDS: [&str; 8] = [
    "settle",
    "read",
    "trade",
    "quote",
    "opening",
    "pause",
    "reopening",
    "closing",
];

/// The index of a call's kind; setup has none.
fn kind(call: &Call) -> Option<usize> {
    match call {
        Call::Setup => None,
        Call::Settle { .. } => Some(0),
        Call::Read { .. } => Some(1),
        Call::Tell(message) => Some(2 + message.letter as usize),
    }
}

/// A kind, how many calls of it there are, and the nanoseconds of its slowest call on each side.
pub struct Slowest {
    pub kind: &'static str,
    pub calls: usize,
    pub library: u64,
    pub second: u64,
}

/// Records the least time of each call of a day.
struct Watch {
    stopwatch: Stopwatch,
    least: Vec<u64>,
    place: usize,
}

impl See for Watch {
    #[inline(always)]
    fn see<T: Copy + Into<Given>>(&mut self, given: &T) {
        black_box(given);
        let took = self.stopwatch.lap();
        let least = &mut self.least[self.place];
        *least = took.min(*least);
        self.place += 1;
        self.stopwatch.restart();
    }
}

/// One side of one day, its start, and its times so far.
struct Play<'a, S> {
    day: &'a Day,
    start: S,
    side: S,
    watch: Watch,
}

impl<'a, S: Side> Play<'a, S> {
    fn new(day: &'a Day, stopwatch: Stopwatch) -> Self {
        let mut side = S::new(&day.setups, day.end);
        side.play(&[Call::Setup], &mut Glance);
        Play {
            day,
            start: side.clone(),
            side,
            watch: Watch {
                stopwatch,
                least: vec![u64::MAX; day.calls.len()],
                place: 0,
            },
        }
    }

    /// Plays the day twice. Only the second time is measured, so that code and book are in the processor's caches.
    fn play(&mut self) {
        self.side.restore(&self.start);
        self.side.play(&self.day.calls, &mut Glance);
        self.side.restore(&self.start);
        self.watch.place = 0;
        self.watch.stopwatch.restart();
        self.side.play(&self.day.calls, &mut self.watch);
    }
}

fn plays<S: Side>(days: &[Day], stopwatch: Stopwatch) -> Vec<Play<'_, S>> {
    days.iter().map(|day| Play::new(day, stopwatch)).collect()
}

/// The slowest call of each kind over all days.
fn most<S>(plays: &[Play<S>]) -> [u64; KINDS.len()] {
    let mut most = [0; KINDS.len()];
    for play in plays {
        for (call, &least) in play.day.calls.iter().zip(&play.watch.least) {
            if let Some(kind) = kind(call) {
                most[kind] = least.max(most[kind]);
            }
        }
    }
    most
}

/// Checks that both sides give the same answers, and then times the days on both.
pub fn find() -> Vec<Slowest> {
    let days: Vec<Day> = (1..=DAYS).map(days::day).collect();
    for day in &days {
        timing::start_alike(&day.setups, day.end, &day.calls);
    }
    let stopwatch = Stopwatch::start();
    let mut libraries: Vec<Play<Library>> = plays(&days, stopwatch);
    let mut seconds: Vec<Play<Second>> = plays(&days, stopwatch);
    for _ in 0..ROUNDS {
        libraries.iter_mut().for_each(Play::play);
        seconds.iter_mut().for_each(Play::play);
    }
    let (library, second) = (most(&libraries), most(&seconds));
    let calls = |place| {
        let all = days.iter().flat_map(|day| &day.calls);
        all.filter(|call| kind(call) == Some(place)).count()
    };
    let row = |(place, &kind)| Slowest {
        kind,
        calls: calls(place),
        library: library[place],
        second: second[place],
    };
    KINDS.iter().enumerate().map(row).collect()
}
