//! A book in two copies, one for the library and one for the byte reader.

use bytes::field::{wide, COUNT};
use bytes::{play, Call, Given, Lent, PLACES, WORDS};
use sumpheron::raw;

use crate::exact::Step;
use crate::library::{self, Arrays};
use crate::report;
use crate::tally::Tally;

/// Fills the guards before and behind each array, each as large as one stock's part. No guard may ever change.
const GUARD_WORD: u32 = 0xa5a5_5a5a;

/// The three lengths that a call gets.
#[derive(Clone, Copy, Debug, PartialEq, Eq)]
pub struct Shape {
    pub stocks: usize,
    pub times: usize,
    pub prices: usize,
}

impl Shape {
    pub fn right(stocks: usize) -> Shape {
        Shape {
            stocks,
            times: PLACES * stocks,
            prices: PLACES * stocks,
        }
    }
}

/// One stock's record and places.
#[derive(Clone)]
pub struct Snapshot {
    pub record: [u32; WORDS],
    pub times: [u32; PLACES],
    pub prices: [u32; PLACES],
}

/// The three arrays, stock by stock, each between its guards: stock i is at index 1 + i.
#[derive(Clone, PartialEq, Eq)]
pub struct Memory {
    pub records: Vec<[u32; WORDS]>,
    pub times: Vec<[u32; PLACES]>,
    pub prices: Vec<[u32; PLACES]>,
}

/// Zeros for this many stocks, between the guards.
fn guarded<const N: usize>(stocks: usize) -> Vec<[u32; N]> {
    let mut rows = vec![[GUARD_WORD; N]; stocks + 2];
    rows[1..=stocks].fill([0; N]);
    rows
}

impl Memory {
    fn new(stocks: usize) -> Memory {
        Memory {
            records: guarded(stocks),
            times: guarded(stocks),
            prices: guarded(stocks),
        }
    }

    /// The arrays as the byte reader takes them.
    fn lent(&mut self, shape: Shape) -> Lent<'_> {
        Lent {
            records: &mut self.records[1..=shape.stocks],
            times: &mut self.times[1..].as_flattened_mut()[..shape.times],
            prices: &mut self.prices[1..].as_flattened_mut()[..shape.prices],
        }
    }

    /// The arrays as the library takes them. An array of length 0 still gets a valid pointer.
    fn arrays(&mut self, shape: Shape) -> Arrays {
        let book: *mut raw::Record = self.records[1..].as_mut_ptr().cast();
        assert!(book.is_aligned());
        Arrays {
            book,
            stocks: shape.stocks,
            times: self.times[1..].as_mut_ptr().cast(),
            times_length: shape.times,
            prices: self.prices[1..].as_mut_ptr().cast(),
            prices_length: shape.prices,
        }
    }
}

pub struct Book {
    /// How many stocks there is room for.
    pub stocks: usize,
    reader: Memory,
    library: Memory,
}

impl Book {
    pub fn new(stocks: usize) -> Book {
        Book {
            stocks,
            reader: Memory::new(stocks),
            library: Memory::new(stocks),
        }
    }

    /// Plays the call on both sides with arrays of the right lengths.
    pub fn play(&mut self, tally: &mut Tally, call: &Call) -> Given {
        self.play_shaped(tally, Shape::right(self.stocks), call)
    }

    /// Plays the call on both sides, and compares the results and every byte.
    pub fn play_shaped(&mut self, tally: &mut Tally, shape: Shape, call: &Call) -> Given {
        let room = Shape::right(self.stocks);
        assert!(shape.stocks <= room.stocks);
        assert!(shape.times <= room.times && shape.prices <= room.prices);
        let named = named(call).filter(|&stock| stock < shape.stocks);
        let before = named.map(|stock| (stock, *self.record(stock)));
        let kept = is_read_only(call).then(|| self.library.clone());
        let expected = play(&mut self.reader.lent(shape), call);
        // SAFETY: the three vectors do not overlap, the records are aligned, and each is at least as long as the shape says.
        let given = unsafe { library::play(self.library.arrays(shape), call) };
        let good_shape = shape.stocks > 0 && shape == Shape::right(shape.stocks);
        tally.count(call, &expected, good_shape);
        if let Some((stock, before)) = &before {
            tally.count_step(&self.step(call, &expected, *stock, before));
        }
        let numbers = library::numbers(&expected);
        let is_written = kept.is_some_and(|kept| kept != self.library);
        if given != numbers || self.library != self.reader || is_written {
            report::print(call, &numbers, &given);
            report::print_words(&self.reader, &self.library);
            self.library = self.reader.clone();
            tally.differ();
        }
        expected
    }

    /// What a call did to this stock.
    fn step<'a>(
        &'a self,
        call: &'a Call,
        given: &Given,
        stock: usize,
        before: &'a [u32; WORDS],
    ) -> Step<'a> {
        let after = self.record(stock);
        Step {
            call,
            answer: given.answer,
            before,
            after,
            held: &self.places(stock).1[..wide(after, COUNT).min(PLACES as u64) as usize],
        }
    }

    pub fn record(&self, stock: usize) -> &[u32; WORDS] {
        &self.reader.records[1 + stock]
    }

    /// The times and the prices of a stock's 512 places.
    pub fn places(&self, stock: usize) -> (&[u32; PLACES], &[u32; PLACES]) {
        (
            &self.reader.times[1 + stock],
            &self.reader.prices[1 + stock],
        )
    }

    pub fn take(&self, stock: usize) -> Snapshot {
        let (times, prices) = self.places(stock);
        Snapshot {
            record: *self.record(stock),
            times: *times,
            prices: *prices,
        }
    }

    /// Puts a stock into both books.
    pub fn put(&mut self, stock: usize, snapshot: &Snapshot) {
        for memory in [&mut self.reader, &mut self.library] {
            memory.records[1 + stock] = snapshot.record;
            memory.times[1 + stock] = snapshot.times;
            memory.prices[1 + stock] = snapshot.prices;
        }
    }
}

/// The stock that a call is about; a setup is about all of them.
fn named(call: &Call) -> Option<usize> {
    let stock = match *call {
        Call::Setup { .. } => return None,
        Call::Settle { stock, .. } => stock,
        Call::Read { stock } | Call::Next { stock } | Call::Totals { stock } => stock,
        Call::Tell(message) => message.stock,
    };
    Some(stock as usize)
}

/// Whether a call may change no byte, whatever it answers.
fn is_read_only(call: &Call) -> bool {
    matches!(
        call,
        Call::Read { .. } | Call::Next { .. } | Call::Totals { .. }
    )
}

const _: () = assert!(size_of::<raw::Record>() == 4 * WORDS);
const _: () = assert!(align_of::<raw::Record>() == align_of::<u64>());
