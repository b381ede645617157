//! Times to test with: at the moments and next to them, and at the edges of the accepted range.

use bytes::field::*;
use bytes::WORDS;

use crate::chance::Chance;

/// A time for the stock's next call, mostly not before its clock.
pub fn pick(chance: &mut Chance, record: &[u32; WORDS], oldest: Option<u32>) -> u32 {
    let clock = record[CLOCK];
    match chance.below(64) {
        0 => clock.wrapping_sub(1),
        1 => wrong(chance, record),
        2..=19 => clock.saturating_add(chance.below(2)),
        20..=31 => clock.saturating_add(chance.below(2_000)),
        32..=39 => clock.saturating_add(chance.below(40_000)),
        _ => at_edge(chance, record, oldest),
    }
}

/// A time that is out of range or far before the clock.
fn wrong(chance: &mut Chance, record: &[u32; WORDS]) -> u32 {
    let latest = record[END].wrapping_add(300_000);
    let later = latest.wrapping_add(1);
    chance.pick(&[latest, later, later, u32::MAX, 0])
}

/// A time at, just before or just after one of the next times at which something changes.
fn at_edge(chance: &mut Chance, record: &[u32; WORDS], oldest: Option<u32>) -> u32 {
    let clock = record[CLOCK];
    let edges = edges(record, oldest);
    if edges.is_empty() {
        return clock;
    }
    let edge = edges[chance.early(edges.len())];
    if edge - clock > 700_000 && !chance.one_in(4) {
        return clock.saturating_add(chance.below(60_000));
    }
    chance.about(edge)
}

/// The times after the clock at which a moment falls due or a check changes, in order.
fn edges(record: &[u32; WORDS], oldest: Option<u32>) -> Vec<u32> {
    let end = record[END];
    let mut edges = vec![
        300_000,
        900_000,
        end.saturating_sub(1_500_000),
        end.saturating_sub(600_000),
        end,
        end.saturating_add(300_000),
    ];
    let dated = [
        (ENTRY, 15_000),
        (PAUSE, 300_000),
        (PAUSE, 600_000),
        (START, 30_000),
    ];
    edges.extend(dated.map(|(field, later)| record[field].saturating_add(later)));
    edges.extend(oldest.map(|time| time.saturating_add(300_000)));
    edges.retain(|&edge| edge > record[CLOCK]);
    edges.sort_unstable();
    edges
}

/// A time for a pause to start, so that it is just late or just not late. Limit takes 15,000 to lead to one.
pub fn late_start(chance: &mut Chance, end: u32, by_limit: bool) -> u32 {
    let start = match chance.below(3) {
        0 => end.saturating_sub(chance.below(590_000)),
        _ => chance.about(end.saturating_sub(600_000)),
    };
    start.saturating_sub(if by_limit { 15_000 } else { 0 })
}
