//! Counts what calls do to the day totals, and which totals were rubbish.

use bytes::field::*;
use bytes::{Call, WORDS};
use second::{Letter, Message, LATE_PAUSE, LIMIT, PAUSED};

use crate::exact::{read_without_trades, reference, Step};
use crate::prices::HIGHEST;
use crate::totals::wrapping_sum;

/// A row of counts, with its name and the titles of its columns.
pub struct Row<'a> {
    pub name: &'static str,
    pub titles: &'static [&'static str],
    pub counts: &'a [u64],
}

#[derive(Default)]
pub struct Counted {
    /// Accepted calls after the clock, by the state that the time was spent in.
    spent: [u64; 5],
    /// Entries into Limit, by the state before; from Limit where it was begun afresh.
    entries: [u64; 4],
    /// Limits begun afresh: with another entry alone, with another reference alone, with both.
    afresh: [u64; 3],
    /// Pauses begun by P, Paused and Late, and by x.
    pauses: [u64; 4],
    /// Accepted T: the first; those that move the highest, the lowest, neither. Accepted O and R and refused T that would move one of them.
    trades: [u64; 6],
    /// The count of limit states that came to its end, and that stayed there; the same of pauses.
    ends: [u64; 4],
    /// Calls refused for totals, the rest of the record being sound: sums that wrap, sums that miss the clock by one, prices over the range.
    wrong: [u64; 3],
}

impl Counted {
    pub fn count(&mut self, step: &Step) {
        match step.answer.number {
            0 => self.count_accepted(step),
            1 => self.count_rubbish(step.before),
            _ => self.trades[5] += would_move(step, &[Letter::T]),
        }
    }

    fn count_accepted(&mut self, step: &Step) {
        let [before, after] = [step.before[STATE], step.after[STATE]];
        if step.after[CLOCK] != step.before[CLOCK] {
            self.spent[before as usize] += 1;
        }
        if after == LIMIT && kept(step.before) != kept(step.after) {
            self.entries[before as usize] += 1;
            self.count_end(0, step, LIMIT_STATES);
            if before == LIMIT {
                self.count_afresh(step);
            }
        }
        if before <= LIMIT && (PAUSED..=LATE_PAUSE).contains(&after) {
            let by_moment = usize::from(matches!(step.call, Call::Settle { .. }));
            let is_late = usize::from(after == LATE_PAUSE);
            self.pauses[2 * by_moment + is_late] += 1;
            self.count_end(2, step, PAUSES);
        }
        if let Some(price) = told(step, &[Letter::T]) {
            self.count_trade(step.before, price);
        }
        self.trades[4] += would_move(step, &[Letter::O, Letter::R]);
    }

    fn count_afresh(&mut self, step: &Step) {
        let same_entry = step.before[ENTRY] == step.after[ENTRY];
        let same_reference = reference(step.before) == reference(step.after);
        match (same_entry, same_reference) {
            (false, true) => self.afresh[0] += 1,
            (true, _) => self.afresh[1] += 1,
            (false, false) => self.afresh[2] += 1,
        }
    }

    /// Counts one more of a total that stands at its end or comes to it.
    fn count_end(&mut self, first: usize, step: &Step, field: usize) {
        self.ends[first] += u64::from(step.before[field] == u32::MAX - 1);
        self.ends[first + 1] += u64::from(step.before[field] == u32::MAX);
    }

    fn count_trade(&mut self, before: &[u32; WORDS], price: u32) {
        let (highest, lowest) = (before[HIGHEST_TRADE], before[LOWEST_TRADE]);
        let kinds = [
            highest == 0 && lowest == 0,
            highest != 0 && price > highest,
            lowest != 0 && price < lowest,
            !moves(before, price),
        ];
        for (counted, kind) in self.trades.iter_mut().zip(kinds) {
            *counted += u64::from(kind);
        }
    }

    fn count_rubbish(&mut self, record: &[u32; WORDS]) {
        let times = record[SPENT..LIMIT_STATES].iter();
        let sum: u64 = times.map(|&time| u64::from(time)).sum();
        let clock = u64::from(record[CLOCK]);
        let kinds = [
            sum != clock && wrapping_sum(record) == record[CLOCK],
            sum.abs_diff(clock) == 1,
            sum == clock && record[HIGHEST_TRADE].max(record[LOWEST_TRADE]) > HIGHEST,
        ];
        if kinds.contains(&true) && is_sound_but_for_totals(record) {
            for (counted, kind) in self.wrong.iter_mut().zip(kinds) {
                *counted += u64::from(kind);
            }
        }
    }

    pub fn rows(&self) -> [Row<'_>; 7] {
        [
            row(
                "spent",
                &["wait", "trade", "limit", "paused", "late"],
                &self.spent,
            ),
            row(
                "entries",
                &["wait", "trade", "limit", "paused"],
                &self.entries,
            ),
            row("afresh", &["entry", "mean", "both"], &self.afresh),
            row("pauses", &["P", "P-late", "x", "x-late"], &self.pauses),
            row(
                "trades",
                &["first", "higher", "lower", "neither", "opening", "refused"],
                &self.trades,
            ),
            row("ends", &["limits", "stay", "pauses", "stay"], &self.ends),
            row("wrong", &["wraps", "one-off", "price"], &self.wrong),
        ]
    }
}

fn row<'a>(name: &'static str, titles: &'static [&'static str], counts: &'a [u64]) -> Row<'a> {
    Row {
        name,
        titles,
        counts,
    }
}

/// What stays the same while Limit lasts.
fn kept(record: &[u32; WORDS]) -> (u32, u32, (u64, u64)) {
    (record[STATE], record[ENTRY], reference(record))
}

/// The price of a message with one of these letters.
fn told(step: &Step, letters: &[Letter]) -> Option<u32> {
    match *step.call {
        Call::Tell(Message { letter, price, .. }) if letters.contains(&letter) => Some(price),
        _ => None,
    }
}

/// 1 if the call is a message with one of these letters and has a price that, as an accepted T, would move the highest or the lowest.
fn would_move(step: &Step, letters: &[Letter]) -> u64 {
    told(step, letters).map_or(0, |price| moves(step.before, price).into())
}

/// Whether an accepted T of this price would move the highest or the lowest.
fn moves(record: &[u32; WORDS], price: u32) -> bool {
    let (highest, lowest) = (record[HIGHEST_TRADE], record[LOWEST_TRADE]);
    price > highest || price < lowest || lowest == 0
}

/// Whether the record, with other totals and without trades, is not rubbish.
fn is_sound_but_for_totals(record: &[u32; WORDS]) -> bool {
    let mut mended = *record;
    mended[SPENT..].fill(0);
    mended[SPENT] = record[CLOCK];
    read_without_trades(mended).number == 0
}
