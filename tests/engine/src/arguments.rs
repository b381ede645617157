//! Every argument of every call at the edges of its range and past them, on good records.

use bytes::field::*;
use bytes::Call;
use second::{Letter, Message};

use crate::book::{Book, Snapshot};
use crate::prices::HIGHEST;
use crate::Run;

/// How many records of each state are used.
const RECORDS: usize = 8;
const PARTICIPANTS: [u32; 5] = [0, 15, 16, 17, u32::MAX];
const PRICES: [u32; 6] = [0, 1, HIGHEST, HIGHEST + 1, 1 << 31, u32::MAX];

pub fn all(run: &mut Run) {
    for good in run.pool.some(RECORDS) {
        let mut book = Book::new(1);
        for time in times(&good) {
            book.put(0, &good);
            book.play(&mut run.tally, &Call::Settle { stock: 0, time });
            for message in messages(&good, time) {
                book.put(0, &good);
                book.play(&mut run.tally, &Call::Tell(message));
            }
        }
    }
}

fn times(good: &Snapshot) -> [u32; 6] {
    let latest = good.record[END] + 300_000;
    let clock = good.record[CLOCK];
    let before = clock.wrapping_sub(1);
    [clock, before, latest, latest + 1, 0, u32::MAX]
}

/// Each participant with each price, for Q each bid with each offer.
fn messages(good: &Snapshot, time: u32) -> Vec<Message> {
    let mut messages = Vec::new();
    for participant in PARTICIPANTS.into_iter().chain([good.record[PRIMARY]]) {
        for price in PRICES {
            let others = Letter::ALL
                .into_iter()
                .filter(|&letter| letter != Letter::Q);
            let quotes = PRICES.map(|offer| (Letter::Q, offer));
            let all = others.map(|letter| (letter, 0)).chain(quotes);
            messages.extend(all.map(|(letter, offer)| Message {
                letter,
                stock: 0,
                time,
                participant,
                price,
                bid: price,
                offer,
            }));
        }
    }
    messages
}
