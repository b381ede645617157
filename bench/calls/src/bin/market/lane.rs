//! What one thread has: its books and their traffic.

use std::cmp::Reverse;
use std::collections::BinaryHeap;
use std::hint::black_box;
use std::time::Duration;

use calls::clock::{used, Stopwatch};
use calls::sides::{Library, Side};

use crate::feed::Feed;
use crate::sent::Sent;
use crate::source::{Source, END};
use crate::tally::{Count, Tally};
use crate::times::Times;

pub struct Lane {
    books: Vec<Library>,
    pub traffic: Vec<Sent>,
    pub tally: Tally,
}

impl Lane {
    /// The books of these numbers, with their messages in the order of time.
    pub fn new(numbers: &[u64]) -> Lane {
        let mut sources: Vec<Source> = numbers.iter().map(|&number| Source::new(number)).collect();
        let book = |source: &Source| Library::new(&source.setups(), END);
        let mut lane = Lane {
            books: sources.iter().map(book).collect(),
            traffic: Vec::new(),
            tally: Tally::default(),
        };
        lane.set_up();
        lane.generate(&mut sources);
        lane
    }

    fn generate(&mut self, sources: &mut [Source]) {
        let turn = |place: usize, source: &Source| Some(Reverse((source.due()?, place)));
        let places = sources.iter().enumerate();
        let mut turns: BinaryHeap<_> = places
            .filter_map(|(place, source)| turn(place, source))
            .collect();
        while let Some(Reverse((time, place))) = turns.pop() {
            let mut feed = Feed {
                book: &mut self.books[place],
                place: place as u8,
                sent: &mut self.traffic,
                tally: &mut self.tally,
            };
            sources[place].send(time, &mut feed);
            turns.extend(turn(place, &sources[place]));
        }
    }

    /// Sets up all books again.
    pub fn set_up(&mut self) {
        for book in &mut self.books {
            assert_eq!(book.setup().number, 0);
        }
    }

    /// The size of its books' arrays, in bytes.
    pub fn lent(&self) -> usize {
        self.books.iter().map(Library::lent).sum()
    }

    /// The processor time of the whole traffic; no clock is read in between.
    pub fn time(&mut self) -> Duration {
        let before = used();
        self.play(|| {});
        used() - before
    }

    /// Records how long each message takes.
    pub fn watch(&mut self, times: &mut Times) {
        let mut stopwatch = Stopwatch::start();
        self.play(|| times.note(stopwatch.lap()));
    }

    /// Settles to each message's time, tells the message, and reports that it is done. The numbers of calls and refusals must be the
    /// same as when the traffic was generated.
    #[inline(never)]
    fn play(&mut self, mut done: impl FnMut()) {
        let mut count = Count::default();
        for sent in &self.traffic {
            let (book, m) = (&mut self.books[usize::from(sent.book)], sent.message());
            loop {
                count.calls += 1;
                let notice = book.settle(m.stock, m.time);
                if black_box(notice).answer.number != 0 {
                    break;
                }
            }
            count.calls += 1;
            let answer = black_box(book.tell(&m));
            count.refused += u64::from(answer.number != 0);
            done();
        }
        assert_eq!(
            count, self.tally.count,
            "the traffic is answered otherwise than when it was made"
        );
    }
}
