//! A call on a book and its result, in a form that both implementations share.

use std::hint::black_box;

use second::Message;
use sumpheron::raw;

/// One call on a book.
#[derive(Clone, Copy)]
pub enum Call {
    Setup,
    Settle { stock: u32, time: u32 },
    Read { stock: u32 },
    Tell(Message),
}

impl Call {
    /// The stock that the call is about. Setup is about all stocks, and counts as the first.
    pub fn stock(&self) -> usize {
        match *self {
            Call::Setup => 0,
            Call::Settle { stock, .. } | Call::Read { stock } => stock as usize,
            Call::Tell(m) => m.stock as usize,
        }
    }
}

/// The result of a call: the answer's nine numbers, the moment's mark and its time.
#[derive(Clone, Copy, Debug, PartialEq, Eq)]
pub struct Given([u32; 9], u32, u32);

impl From<raw::Answer> for Given {
    fn from(answer: raw::Answer) -> Given {
        Given(answer.numbers(), 0, 0)
    }
}

impl From<raw::Notice> for Given {
    fn from(notice: raw::Notice) -> Given {
        let Given(answer, ..) = notice.answer.into();
        Given(answer, notice.mark, notice.time)
    }
}

impl From<second::Answer> for Given {
    fn from(a: second::Answer) -> Given {
        let answer = [
            a.number,
            a.state,
            a.reference,
            a.lower,
            a.upper,
            a.bid,
            a.bid_flag,
            a.offer,
            a.offer_flag,
        ];
        Given(answer, 0, 0)
    }
}

impl From<second::Notice> for Given {
    fn from(notice: second::Notice) -> Given {
        let Given(answer, ..) = notice.answer.into();
        Given(answer, notice.mark.into(), notice.time)
    }
}

/// Gets the result of each call.
pub trait See {
    fn see<T: Copy + Into<Given>>(&mut self, given: &T);
}

/// Uses each result only so that the compiler cannot remove a call.
pub struct Glance;

impl See for Glance {
    #[inline(always)]
    fn see<T: Copy + Into<Given>>(&mut self, given: &T) {
        black_box(given);
    }
}

/// Records each result, for comparison.
impl See for Vec<Given> {
    fn see<T: Copy + Into<Given>>(&mut self, given: &T) {
        self.push((*given).into());
    }
}
