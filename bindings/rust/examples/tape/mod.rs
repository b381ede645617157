//! What the programs `day` and `totals` share: reading the lines of a day, and telling them to a book.

use std::fmt;
use std::io::{self, Read};
use std::str::SplitInclusive;
use sumpheron::{Answer, Book, Error, Refusal, Setup, MOST_STOCKS};

const MOST: u32 = MOST_STOCKS as u32;

/// What is done with the result of each moment and each message, which follows the stock, the time and the letter.
pub type Each<'a> = &'a mut dyn FnMut(u32, u32, &str, Result<Answer, Refusal>);

/// Why a day ends before its last line, and the number of the line.
pub struct Fault {
    line: usize,
    why: Why,
}

enum Why {
    Malformed,
    NoBook(Error),
}

impl fmt::Display for Fault {
    fn fmt(&self, out: &mut fmt::Formatter<'_>) -> fmt::Result {
        write!(out, "line {}: ", self.line)?;
        match &self.why {
            Why::Malformed => out.write_str("it is malformed or missing"),
            Why::NoBook(error) => error.fmt(out),
        }
    }
}

/// The lines that are still to be read, and the number of the line that was read last.
struct Lines<'a> {
    rest: SplitInclusive<'a, char>,
    number: usize,
}

impl<'a> Lines<'a> {
    /// The next line's letter and numbers, each number with one space before it.
    fn next(&mut self) -> Option<(&'a str, Vec<u32>)> {
        self.number += 1;
        let mut fields = self.rest.next()?.strip_suffix('\n')?.split(' ');
        let letter = fields.next()?;
        Some((letter, fields.map(number).collect::<Option<_>>()?))
    }
}

/// A number of 1 to 10 digits.
fn number(field: &str) -> Option<u32> {
    let plain = field.len() <= 10 && field.bytes().all(|byte| byte.is_ascii_digit());
    plain.then(|| field.parse().ok())?
}

/// The text of standard input.
pub fn read() -> io::Result<String> {
    let mut text = Vec::new();
    io::stdin().read_to_end(&mut text)?;
    Ok(String::from_utf8_lossy(&text).into_owned())
}

/// Plays a day of up to 64 stocks, and returns the book after it. Each stock is settled before each message. If a line is malformed, the
/// day ends there.
pub fn play(day: &str, each: Each) -> Result<Book, Fault> {
    let mut lines = Lines {
        rest: day.split_inclusive('\n'),
        number: 0,
    };
    let played = play_lines(&mut lines, each);
    let line = lines.number;
    played.map_err(|why| Fault { line, why })
}

fn play_lines(lines: &mut Lines, each: Each) -> Result<Book, Why> {
    let (end, setups, messages) = contents(lines)?;
    let mut book = Book::new(end, &setups).map_err(Why::NoBook)?;
    for _ in 0..messages {
        let (letter, numbers) = lines.next().ok_or(Why::Malformed)?;
        let told = tell(&mut book, letter, &numbers, each).ok_or(Why::Malformed)?;
        each(numbers[0], numbers[1], letter, told);
    }
    Ok(book)
}

/// What the first lines of a day say: when the session ends, how its stocks start, and how many messages follow. The numbers of each line
/// are tried in a book of their own, so that one out of range is found on its line.
fn contents(lines: &mut Lines) -> Result<(u32, Vec<Setup>, u32), Why> {
    let (stocks, messages, end) = match lines.next() {
        Some(("C", n)) if n.len() == 3 && (1..=MOST).contains(&n[0]) => (n[0], n[1], n[2]),
        _ => return Err(Why::Malformed),
    };
    Book::new(end, &[Setup::new(1, 1, 0, 1)]).map_err(Why::NoBook)?;
    let mut setups = Vec::new();
    for _ in 0..stocks {
        let setup = match lines.next() {
            Some(("S", n)) if n.len() == 4 => Setup::new(n[0], n[1], n[2], n[3]),
            _ => return Err(Why::Malformed),
        };
        Book::new(end, &[setup]).map_err(Why::NoBook)?;
        setups.push(setup);
    }
    Ok((end, setups, messages))
}

/// Tells the book a message, unless its line is malformed.
fn tell(
    book: &mut Book,
    letter: &str,
    numbers: &[u32],
    each: Each,
) -> Option<Result<Answer, Refusal>> {
    Some(match (letter, numbers) {
        ("T", &[s, t, price]) => settled(book, s, t, each).trade(s, t, price),
        ("Q", &[s, t, who, bid, offer]) => settled(book, s, t, each).quote(s, t, who, bid, offer),
        ("O", &[s, t, who, price]) => settled(book, s, t, each).opening(s, t, who, price),
        ("P", &[s, t, who]) => settled(book, s, t, each).pause(s, t, who),
        ("R", &[s, t, who, price]) => settled(book, s, t, each).reopening(s, t, who, price),
        ("X", &[s, t, who, price]) => settled(book, s, t, each).closing(s, t, who, price),
        _ => return None,
    })
}

/// Settles a stock to a time, and returns the book.
fn settled<'a>(book: &'a mut Book, stock: u32, time: u32, each: Each) -> &'a mut Book {
    let settled = book.settle_all(stock, time, |notice| {
        let letter = notice.mark.to_string();
        each(stock, notice.time, &letter, Ok(notice.answer));
    });
    // If the settling is refused, the message is refused too, and its number is the result.
    settled.ok();
    book
}
