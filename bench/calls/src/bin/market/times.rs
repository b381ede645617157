//! A histogram of message times.

use std::ops::AddAssign;

/// Times from here on are stored individually.
const LONG: usize = 1 << 16;

/// How often each number of nanoseconds occurred.
pub struct Times {
    counts: Vec<u64>,
    long: Vec<u64>,
}

impl Times {
    pub fn new() -> Times {
        Times {
            counts: vec![0; LONG],
            long: Vec::new(),
        }
    }

    #[inline(always)]
    pub fn note(&mut self, nanoseconds: u64) {
        match self.counts.get_mut(nanoseconds as usize) {
            Some(count) => *count += 1,
            None => self.long.push(nanoseconds),
        }
    }

    /// The times in order, each with how often it occurred.
    fn in_order(&self) -> Vec<(u64, u64)> {
        let short = self.counts.iter().enumerate();
        let mut all: Vec<(u64, u64)> = short.map(|(time, &count)| (time as u64, count)).collect();
        all.extend(self.long.iter().map(|&time| (time, 1)));
        all.retain(|&(_, count)| count > 0);
        all.sort_unstable();
        all
    }

    /// The quantile for this share, in thousandths.
    pub fn at(&self, thousandths: u64) -> u64 {
        let all = self.in_order();
        let total: u64 = all.iter().map(|&(_, count)| count).sum();
        let mut below = 0;
        let reaches = |&&(_, count): &&(u64, u64)| {
            below += count;
            1_000 * below >= thousandths * total
        };
        all.iter().find(reaches).map_or(0, |&(time, _)| time)
    }
}

impl AddAssign for Times {
    fn add_assign(&mut self, other: Times) {
        for (mine, theirs) in self.counts.iter_mut().zip(other.counts) {
            *mine += theirs;
        }
        self.long.extend(other.long);
    }
}
