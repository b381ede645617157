//! The clocks: one for stretches of many calls, one for single calls and messages.

use std::time::{Duration, Instant};

/// A timespec of 64-bit Linux.
#[derive(Default)]
#[repr(C)]
struct Clock {
    seconds: i64,
    nanoseconds: i64,
}

extern "C" {
    fn clock_gettime(which: i32, clock: *mut Clock) -> i32;
}

/// The processor time of this thread, which leaves out what other threads use.
pub fn used() -> Duration {
    const OF_THIS_THREAD: i32 = 3;
    let mut clock = Clock::default();
    // SAFETY: the pointer is to a valid timespec.
    let failed = unsafe { clock_gettime(OF_THIS_THREAD, &mut clock) };
    assert_eq!(failed, 0);
    Duration::new(clock.seconds as u64, clock.nanoseconds as u32)
}

/// Measures the time between two readings, less the time that a reading itself takes.
#[derive(Clone, Copy)]
pub struct Stopwatch {
    last: Instant,
    own: u64,
}

impl Stopwatch {
    pub fn start() -> Stopwatch {
        let last = Instant::now();
        let mut idle = Stopwatch { last, own: 0 };
        let own = (0..10_000).map(|_| idle.lap()).min().unwrap_or(0);
        idle.restart();
        Stopwatch { own, ..idle }
    }

    pub fn restart(&mut self) {
        self.last = Instant::now();
    }

    /// Nanoseconds since the last reading or restart.
    #[inline(always)]
    pub fn lap(&mut self) -> u64 {
        let now = Instant::now();
        let took = (now - self.last).as_nanos() as u64;
        self.last = now;
        took.saturating_sub(self.own)
    }
}
