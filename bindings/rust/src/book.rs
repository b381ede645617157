//! The book of stocks, and the calls on it.

use crate::{raw, Answer, Error, Moment, Notice, Number, Refusal, Totals};
use crate::{MOST_STOCKS, PLACES, SETUP_NUMBERS, VERSION};
use std::{fmt, ops::Range};

/// How a stock starts the day.
#[non_exhaustive]
#[derive(Clone, Copy, Debug, PartialEq, Eq)]
pub struct Setup {
    /// The tier, 1 or 2.
    pub tier: u32,
    /// The leverage, 1 to 3, in tier 1 only 1.
    pub leverage: u32,
    /// The participant that lists the stock, 0 to 15.
    pub primary: u32,
    /// The previous close, a price.
    pub close: u32,
}

impl Setup {
    /// Makes a setup of these numbers. They are validated when a book is set up with it.
    pub const fn new(tier: u32, leverage: u32, primary: u32, close: u32) -> Setup {
        Setup {
            tier,
            leverage,
            primary,
            close,
        }
    }

    /// The numbers in the order that the library expects.
    fn numbers(&self) -> [u32; SETUP_NUMBERS] {
        [self.tier, self.leverage, self.primary, self.close]
    }
}

/// The stocks of one trading day: a record for each, and the times and prices of its trades in the last five minutes.
///
/// A clone is a snapshot: calls on one book do not change the other, and the same calls give the same results on both.
#[derive(Clone, PartialEq, Eq)]
pub struct Book {
    records: Vec<raw::Record>,
    times: Vec<u32>,
    prices: Vec<u32>,
}

/// Calls a function of the library with a book's three arrays and then with the other arguments.
macro_rules! lend {
    ($book:ident, $pointer:ident, $function:ident $(, $argument:expr)*) => {{
        let Book { records, times, prices } = $book;
        // SAFETY: a book exists only if the library has the declared version. Each array is a vector's own pointer and length, and no
        // two vectors overlap. A function that writes takes *mut pointers, which as_mut_ptr gives only for a &mut borrow, so no other
        // call uses the arrays at the same time.
        unsafe {
            raw::$function(
                records.$pointer(), records.len(),
                times.$pointer(), times.len(),
                prices.$pointer(), prices.len()
                $(, $argument)*
            )
        }
    }};
}

impl Book {
    /// Makes a book with one stock for each setup, for a session that ends at `end`, from 3,600,000 to 23,400,000.
    ///
    /// Refused as [`Rubbish`](Number::Rubbish) if there is no setup or more than 64, and as [`BadSetup`](Number::BadSetup) if a number
    /// is out of range. Fails with [`OtherVersion`](Error::OtherVersion) if the library and these bindings are of different versions.
    pub fn new(end: u32, setups: &[Setup]) -> Result<Book, Error> {
        if !(1..=MOST_STOCKS).contains(&setups.len()) {
            return Err(Refusal::of(Number::Rubbish).into());
        }
        let places = setups.len() * PLACES;
        let mut book = Book::from_parts(
            vec![raw::Record::default(); setups.len()],
            vec![0; places],
            vec![0; places],
        )?;
        book.set_up(end, setups)?;
        Ok(book)
    }

    /// Sets up the whole book again, in place. There must be one setup for each stock. A refusal leaves the book unchanged.
    pub fn set_up(&mut self, end: u32, setups: &[Setup]) -> Result<(), Refusal> {
        let list: Vec<u32> = setups.iter().flat_map(Setup::numbers).collect();
        let answer: Result<Answer, Refusal> = lend!(
            self,
            as_mut_ptr,
            sumpheron_setup,
            end,
            list.as_ptr(),
            list.len()
        )
        .try_into();
        answer.map(|_| ())
    }

    /// Makes a book of arrays that were saved. Their contents need no validation: calls on a book of the wrong shape, or on a stock
    /// that is rubbish, are refused as [`Rubbish`](Number::Rubbish). Fails only with [`OtherVersion`](Error::OtherVersion), if the
    /// library and these bindings are of different versions.
    pub fn from_parts(
        records: Vec<raw::Record>,
        times: Vec<u32>,
        prices: Vec<u32>,
    ) -> Result<Book, Error> {
        // SAFETY: the function takes no argument, and returns a number in every version.
        match unsafe { raw::sumpheron_version() } {
            VERSION => Ok(Book {
                records,
                times,
                prices,
            }),
            other => Err(Error::OtherVersion(other)),
        }
    }

    /// The book's three arrays.
    pub fn into_parts(self) -> (Vec<raw::Record>, Vec<u32>, Vec<u32>) {
        (self.records, self.times, self.prices)
    }

    /// Replaces a stock of this book with stock `other` of the book `from`: its record and its places. The books may have different
    /// numbers of stocks. The copied stock is not validated.
    ///
    /// Refused as [`Rubbish`](Number::Rubbish) if one of the books has a wrong shape, and as [`NoStock`](Number::NoStock) if one has
    /// no stock of that number.
    pub fn copy_stock(&mut self, stock: u32, from: &Book, other: u32) -> Result<(), Refusal> {
        let (to, of) = (self.places(stock)?, from.places(other)?);
        self.records[stock as usize] = from.records[other as usize];
        self.times[to.clone()].copy_from_slice(&from.times[of.clone()]);
        self.prices[to].copy_from_slice(&from.prices[of]);
        Ok(())
    }

    /// The range of a stock's places, if the book has the right shape and the stock exists.
    fn places(&self, stock: u32) -> Result<Range<usize>, Refusal> {
        let (stocks, stock) = (self.stocks(), stock as usize);
        let right = |length| stocks <= MOST_STOCKS && length == stocks * PLACES;
        if stocks == 0 || !right(self.times.len()) || !right(self.prices.len()) {
            return Err(Refusal::of(Number::Rubbish));
        }
        if stock >= stocks {
            return Err(Refusal::of(Number::NoStock));
        }
        Ok(stock * PLACES..(stock + 1) * PLACES)
    }

    /// How many stocks there are; they are numbered from 0.
    pub fn stocks(&self) -> usize {
        self.records.len()
    }

    /// The stocks' records.
    pub fn records(&self) -> &[raw::Record] {
        &self.records
    }

    /// The times of held trades, [`PLACES`] for each stock.
    pub fn times(&self) -> &[u32] {
        &self.times
    }

    /// The prices of held trades, [`PLACES`] for each stock.
    pub fn prices(&self) -> &[u32] {
        &self.prices
    }

    /// A stock's present values.
    pub fn read(&self, stock: u32) -> Result<Answer, Refusal> {
        lend!(self, as_ptr, sumpheron_read, stock).try_into()
    }

    /// A stock's earliest moment that is still to come; `None` if there is none, as in a Closed stock.
    ///
    /// Settling to its time or later does that moment. Settling to an earlier time is refused as
    /// [`NothingDue`](Number::NothingDue).
    pub fn next(&self, stock: u32) -> Result<Option<Moment>, Refusal> {
        Moment::coming(lend!(self, as_ptr, sumpheron_next, stock))
    }

    /// A stock's day totals: how long it was in each state, its limit states and pauses, and its highest and lowest trade.
    pub fn totals(&self, stock: u32) -> Result<Totals, Refusal> {
        lend!(self, as_ptr, sumpheron_totals, stock).try_into()
    }

    /// Does a stock's earliest moment if it is due by `time`, and is otherwise refused as [`NothingDue`](Number::NothingDue).
    pub fn settle(&mut self, stock: u32, time: u32) -> Result<Notice, Refusal> {
        lend!(self, as_mut_ptr, sumpheron_settle, stock, time).try_into()
    }

    /// Does all of a stock's moments that are due by `time`, passes each notice to `each`, and returns the stock's values after them.
    pub fn settle_all(
        &mut self,
        stock: u32,
        time: u32,
        mut each: impl FnMut(Notice),
    ) -> Result<Answer, Refusal> {
        loop {
            match self.settle(stock, time) {
                Ok(notice) => each(notice),
                Err(Refusal {
                    number: Number::NothingDue,
                    answer: Some(answer),
                }) => return Ok(answer),
                Err(refusal) => return Err(refusal),
            }
        }
    }

    /// T: an eligible trade.
    pub fn trade(&mut self, stock: u32, time: u32, price: u32) -> Result<Answer, Refusal> {
        lend!(self, as_mut_ptr, sumpheron_trade, stock, time, price).try_into()
    }

    /// Q: a participant's bid and offer; a price of 0 means no bid, or no offer.
    pub fn quote(
        &mut self,
        stock: u32,
        time: u32,
        participant: u32,
        bid: u32,
        offer: u32,
    ) -> Result<Answer, Refusal> {
        lend!(
            self,
            as_mut_ptr,
            sumpheron_quote,
            stock,
            time,
            participant,
            bid,
            offer
        )
        .try_into()
    }

    /// O: the primary's opening price, before 300,000.
    pub fn opening(
        &mut self,
        stock: u32,
        time: u32,
        participant: u32,
        price: u32,
    ) -> Result<Answer, Refusal> {
        lend!(
            self,
            as_mut_ptr,
            sumpheron_opening,
            stock,
            time,
            participant,
            price
        )
        .try_into()
    }

    /// P: the primary declares a pause, while a side has the flag [`NonExecutable`](crate::Flag::NonExecutable).
    pub fn pause(&mut self, stock: u32, time: u32, participant: u32) -> Result<Answer, Refusal> {
        lend!(self, as_mut_ptr, sumpheron_pause, stock, time, participant).try_into()
    }

    /// R: the primary reopens a paused stock at a price.
    pub fn reopening(
        &mut self,
        stock: u32,
        time: u32,
        participant: u32,
        price: u32,
    ) -> Result<Answer, Refusal> {
        lend!(
            self,
            as_mut_ptr,
            sumpheron_reopening,
            stock,
            time,
            participant,
            price
        )
        .try_into()
    }

    /// X: the primary's closing, after a late pause.
    pub fn closing(
        &mut self,
        stock: u32,
        time: u32,
        participant: u32,
        price: u32,
    ) -> Result<Answer, Refusal> {
        lend!(
            self,
            as_mut_ptr,
            sumpheron_closing,
            stock,
            time,
            participant,
            price
        )
        .try_into()
    }
}

impl fmt::Debug for Book {
    /// Prints the records, and leaves out the trades.
    fn fmt(&self, out: &mut fmt::Formatter<'_>) -> fmt::Result {
        out.debug_struct("Book")
            .field("records", &self.records)
            .finish_non_exhaustive()
    }
}
