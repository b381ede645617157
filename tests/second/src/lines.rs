//! The day program's lines: cutting the input into lines, reading a line, printing a line.

use std::io::{self, ErrorKind, Read, Write};

use crate::messages::{Letter, Message};
use crate::stock::{end_in_range, setup_in_range, Answer, Setup};

/// Input and output go in blocks of this size.
const BLOCK: usize = 64 * 1024;
/// The longest good line, without its line feed: Q and five numbers of ten digits.
const LONGEST_READ: usize = 1 + 5 * 11;
/// The longest printed line: eleven numbers of ten digits, a letter, eleven spaces, a line feed.
const LONGEST_PRINTED: usize = 11 * 10 + 1 + 11 + 1;
/// The day program serves up to this many stocks.
const STOCKS_AT_MOST: u32 = 8;

/// The C line.
#[derive(Clone, Copy, Debug, PartialEq, Eq)]
pub struct Contents {
    pub stocks: u32,
    pub messages: u32,
    pub end: u32,
}

/// The input, cut into lines.
pub struct Input<R> {
    source: R,
    block: Vec<u8>,
    from: usize,
    to: usize,
    number: u64,
}

impl<R: Read> Input<R> {
    pub fn new(source: R) -> Input<R> {
        Input {
            source,
            block: vec![0; BLOCK],
            from: 0,
            to: 0,
            number: 0,
        }
    }

    /// The number, from 1, of the line asked for last.
    pub fn number(&self) -> u64 {
        self.number
    }

    /// The next line without its line feed; none if it is missing, unended or too long.
    pub fn next_line(&mut self) -> Option<&[u8]> {
        self.number += 1;
        loop {
            let held = &self.block[self.from..self.to];
            let looked_at = held.len().min(LONGEST_READ + 1);
            let feed = held[..looked_at].iter().position(|&byte| byte == b'\n');
            if let Some(length) = feed {
                let from = self.from;
                self.from += length + 1;
                return Some(&self.block[from..from + length]);
            }
            if looked_at > LONGEST_READ || !self.refill() {
                return None;
            }
        }
    }

    /// Moves what is held to the front and reads on behind it; false at the input's end.
    fn refill(&mut self) -> bool {
        self.block.copy_within(self.from..self.to, 0);
        self.to -= self.from;
        self.from = 0;
        loop {
            match self.source.read(&mut self.block[self.to..]) {
                Ok(0) => return false,
                Ok(length) => {
                    self.to += length;
                    return true;
                }
                Err(error) if error.kind() == ErrorKind::Interrupted => {}
                // What cannot be read is missing.
                Err(_) => return false,
            }
        }
    }
}

/// `C stocks messages E`, with 1 to 8 stocks and an E that setup takes.
pub fn contents(line: &[u8]) -> Option<Contents> {
    contents_up_to(line, STOCKS_AT_MOST)
}

/// The same with 1 to so many stocks.
pub fn contents_up_to(line: &[u8], stocks_at_most: u32) -> Option<Contents> {
    let [stocks, messages, end] = numbers(line.strip_prefix(b"C")?)?;
    let good = (1..=stocks_at_most).contains(&stocks) && end_in_range(end);
    good.then_some(Contents {
        stocks,
        messages,
        end,
    })
}

/// `S tier leverage primary close`, as setup takes it.
pub fn stock(line: &[u8]) -> Option<Setup> {
    let [tier, leverage, primary, close] = numbers(line.strip_prefix(b"S")?)?;
    let setup = Setup {
        tier,
        leverage,
        primary,
        close,
    };
    setup_in_range(&setup).then_some(setup)
}

/// A message: letter, stock, time, and what the letter has after these.
pub fn message(line: &[u8]) -> Option<Message> {
    let (&first, rest) = line.split_first()?;
    let letter = Letter::from_byte(first)?;
    let mut m = Message {
        letter,
        stock: 0,
        time: 0,
        participant: 0,
        price: 0,
        bid: 0,
        offer: 0,
    };
    match letter {
        Letter::T => [m.stock, m.time, m.price] = numbers(rest)?,
        Letter::Q => [m.stock, m.time, m.participant, m.bid, m.offer] = numbers(rest)?,
        Letter::P => [m.stock, m.time, m.participant] = numbers(rest)?,
        Letter::O | Letter::R | Letter::X => {
            [m.stock, m.time, m.participant, m.price] = numbers(rest)?;
        }
    }
    Some(m)
}

/// Exactly N numbers to the line's end, each after exactly one space.
fn numbers<const N: usize>(mut rest: &[u8]) -> Option<[u32; N]> {
    let mut all = [0; N];
    for value in &mut all {
        rest = rest.strip_prefix(b" ")?;
        let length = rest.iter().take_while(|byte| byte.is_ascii_digit()).count();
        let (digits, behind) = rest.split_at(length);
        *value = number(digits)?;
        rest = behind;
    }
    rest.is_empty().then_some(all)
}

/// A number has one to ten digits and is at most 4,294,967,295.
fn number(digits: &[u8]) -> Option<u32> {
    if digits.is_empty() || digits.len() > 10 {
        return None;
    }
    let value = digits
        .iter()
        .fold(0, |value, digit| 10 * value + u64::from(digit - b'0'));
    u32::try_from(value).ok()
}

/// The output, gathered into blocks of whole lines.
pub struct Output<W> {
    sink: W,
    block: Vec<u8>,
}

impl<W: Write> Output<W> {
    pub fn new(sink: W) -> Output<W> {
        Output {
            sink,
            block: Vec::with_capacity(BLOCK),
        }
    }

    /// Prints stock, time, mark or letter, and the answer.
    pub fn line(&mut self, stock: u32, time: u32, mark: u8, answer: &Answer) -> io::Result<()> {
        self.make_room()?;
        push_number(&mut self.block, stock.into());
        self.block.push(b' ');
        push_number(&mut self.block, time.into());
        self.block.push(b' ');
        self.block.push(mark);
        for value in [
            answer.number,
            answer.state,
            answer.reference,
            answer.lower,
            answer.upper,
            answer.bid,
            answer.bid_flag,
            answer.offer,
            answer.offer_flag,
        ] {
            self.block.push(b' ');
            push_number(&mut self.block, value.into());
        }
        self.block.push(b'\n');
        Ok(())
    }

    /// Prints `BAD` with the line's number.
    pub fn bad(&mut self, number: u64) -> io::Result<()> {
        self.make_room()?;
        self.block.extend_from_slice(b"BAD ");
        push_number(&mut self.block, number);
        self.block.push(b'\n');
        Ok(())
    }

    /// Hands on everything printed so far.
    pub fn flush(&mut self) -> io::Result<()> {
        self.sink.write_all(&self.block)?;
        self.block.clear();
        self.sink.flush()
    }

    fn make_room(&mut self) -> io::Result<()> {
        if self.block.len() + LONGEST_PRINTED > BLOCK {
            self.flush()?;
        }
        Ok(())
    }
}

fn push_number(block: &mut Vec<u8>, mut value: u64) {
    let mut digits = [0; 20];
    let mut at = digits.len();
    loop {
        at -= 1;
        digits[at] = b'0' + (value % 10) as u8;
        value /= 10;
        if value == 0 {
            break;
        }
    }
    block.extend_from_slice(&digits[at..]);
}
