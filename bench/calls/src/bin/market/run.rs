//! Plays books on threads; each book stays on one thread.

use std::sync::Barrier;
use std::thread;
use std::time::{Duration, Instant};

use crate::lane::Lane;
use crate::tally::Tally;
use crate::times::Times;

/// Fewer books than this are played more than once, so that no measured time is too short.
const ENOUGH: usize = 16;

/// What one thread measured, or all threads together.
pub struct Found {
    pub messages: u64,
    pub tally: Tally,
    /// The size of the books' arrays, in bytes.
    pub lent: usize,
    /// How often the traffic was played.
    pub repeats: usize,
    /// The wall time until all threads were done, and the processor time of all of them; no clock is read in between.
    pub passed: Duration,
    pub worked: Duration,
    /// How long each message took, in a second run of as many repeats.
    pub times: Times,
}

impl Found {
    fn add(mut self, other: Found) -> Found {
        self.messages += other.messages;
        self.tally += other.tally;
        self.lent += other.lent;
        self.passed = self.passed.max(other.passed);
        self.worked += other.worked;
        self.times += other.times;
        self
    }
}

/// Distributes the books over the threads, and plays them in parallel.
pub fn play(books: usize, threads: usize) -> Found {
    let threads = threads.min(books);
    let repeats = (ENOUGH / books).max(1);
    let together = Barrier::new(threads);
    let hand = |thread| (thread..books).step_by(threads).map(|book| book as u64);
    thread::scope(|scope| {
        let start = |thread| {
            let (numbers, together): (Vec<u64>, _) = (hand(thread).collect(), &together);
            scope.spawn(move || play_lane(&numbers, repeats, together))
        };
        let running: Vec<_> = (0..threads).map(start).collect();
        let found = running.into_iter().map(|thread| thread.join());
        let found = found.map(|found| found.expect("a thread ends"));
        found.reduce(Found::add).expect("there is a thread")
    })
}

/// Generates the traffic of these books and plays it. Each repeat starts at the same time on all threads.
fn play_lane(numbers: &[u64], repeats: usize, together: &Barrier) -> Found {
    let (mut lane, mut times) = (Lane::new(numbers), Times::new());
    let (mut passed, mut worked) = (Duration::ZERO, Duration::ZERO);
    for _ in 0..repeats {
        lane.set_up();
        together.wait();
        let began = Instant::now();
        worked += lane.time();
        together.wait();
        passed += began.elapsed();
    }
    for _ in 0..repeats {
        lane.set_up();
        together.wait();
        lane.watch(&mut times);
    }
    Found {
        messages: lane.traffic.len() as u64,
        lent: lane.lent(),
        tally: lane.tally,
        repeats,
        passed,
        worked,
        times,
    }
}
