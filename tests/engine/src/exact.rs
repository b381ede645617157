//! Counts what only the exact mean explains: the references that calls write, and the bands and Tests that a rounded mean would change.

use bytes::field::*;
use bytes::{Call, Lent, PLACES, WORDS};
use second::{Answer, Letter, Message, TRADING};

/// The sum and the count of a record's reference.
pub fn reference(record: &[u32; WORDS]) -> (u64, u64) {
    (wide(record, REFERENCE_SUM), wide(record, REFERENCE_COUNT))
}

pub fn set_reference(record: &mut [u32; WORDS], (sum, count): (u64, u64)) {
    set_wide(record, REFERENCE_SUM, sum);
    set_wide(record, REFERENCE_COUNT, count);
}

/// The byte reader's answer about a record whose stock holds no trade.
pub fn read_without_trades(mut record: [u32; WORDS]) -> Answer {
    set_wide(&mut record, COUNT, 0);
    let mut lent = Lent {
        records: &mut [record],
        times: &mut [0; PLACES],
        prices: &mut [0; PLACES],
    };
    bytes::play(&mut lent, &Call::Read { stock: 0 }).answer
}

/// A stock's record before and after a call, and the prices that it holds after it.
pub struct Step<'a> {
    pub call: &'a Call,
    pub answer: Answer,
    pub before: &'a [u32; WORDS],
    pub after: &'a [u32; WORDS],
    pub held: &'a [u32],
}

#[derive(Default)]
pub struct Exact {
    /// References that were written: with the count 1; with a higher count that divides the sum; with one that does not; of both,
    /// those that could be reduced, and those whose sum needs more than 32 bits.
    pub written: [u64; 5],
    /// Answers with other bands than the printed reference gives, and Tests that printed means would decide otherwise.
    pub rounded: [u64; 2],
}

/// The titles of the counts.
pub const WRITTEN: [&str; 5] = ["one", "whole", "broken", "reduces", "wide"];
pub const ROUNDED: [&str; 2] = ["bands", "tests"];

impl Exact {
    pub fn count(&mut self, step: &Step) {
        let (sum, count) = reference(step.after);
        if reference(step.before) != (sum, count) {
            let whole = sum % count == 0;
            let kinds = [
                count == 1,
                count > 1 && whole,
                !whole,
                common_divisor(sum, count) > 1,
                sum > u64::from(u32::MAX),
            ];
            for (counted, kind) in self.written.iter_mut().zip(kinds) {
                *counted += u64::from(kind);
            }
        }
        self.rounded[0] += u64::from(has_bands_of_its_own(step));
        self.rounded[1] += u64::from(is_tested_otherwise(step));
    }
}

/// Whether the bands are not those of the printed reference.
fn has_bands_of_its_own(step: &Step) -> bool {
    let Answer { lower, upper, .. } = step.answer;
    if upper == 0 || wide(step.after, REFERENCE_COUNT) == 1 {
        return false;
    }
    let mut printed = *step.after;
    set_reference(&mut printed, (step.answer.reference.into(), 1));
    let read = read_without_trades(printed);
    (read.lower, read.upper) != (lower, upper)
}

/// Whether a trade's Test moves the reference where printed means would not, or the other way round.
fn is_tested_otherwise(step: &Step) -> bool {
    let is_trade = matches!(step.call, Call::Tell(Message { letter, .. }) if *letter == Letter::T);
    if !is_trade || step.before[STATE] != TRADING || step.before[HOLD] != 0 {
        return false;
    }
    let sum = step.held.iter().map(|&price| u64::from(price)).sum();
    let mean = printed((sum, step.held.len() as u64));
    let reference = printed(reference(step.before));
    let is_far = 100 * mean.abs_diff(reference) >= reference;
    is_far != (step.after[HOLD] != 0)
}

/// The mean as answers give it.
fn printed((sum, count): (u64, u64)) -> u64 {
    (2 * sum + count) / (2 * count)
}

fn common_divisor(a: u64, b: u64) -> u64 {
    match b {
        0 => a,
        _ => common_divisor(b, a % b),
    }
}
