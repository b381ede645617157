//! Arrays and lists of the wrong length, stock numbers that are too large, and setups out of range.

use bytes::Call;
use second::{Letter, Message};

use crate::book::{Book, Shape};
use crate::breaks;
use crate::prices::HIGHEST;
use crate::setups::{self, LONGEST, SHORTEST};
use crate::Run;

/// The arrays have room for this many stocks, so that a length may exceed what a book of 65 needs.
const ROOM: usize = 66;

pub fn all(run: &mut Run) {
    let mut book = Book::new(ROOM);
    fill(run, &mut book);
    for stocks in [0, 1, 2, 63, 64, 65] {
        let right = Shape::right(stocks);
        set_up(run, &mut book, right, stocks);
        for shape in wrong(right) {
            set_up(run, &mut book, shape, stocks);
            every_call(run, &mut book, shape);
        }
        every_call(run, &mut book, right);
        lists(run, &mut book, stocks);
    }
    for stocks in [1, 3] {
        ranges(run, &mut book, stocks);
    }
}

/// Fills everything with random bytes, so that a setup must overwrite all of them.
fn fill(run: &mut Run, book: &mut Book) {
    for stock in 0..ROOM {
        book.put(stock, &breaks::any(&mut run.chance));
    }
}

fn set_up(run: &mut Run, book: &mut Book, shape: Shape, stocks: usize) {
    let end = setups::end(&mut run.chance);
    let setups = setups::list(&mut run.chance, stocks);
    book.play_shaped(&mut run.tally, shape, &Call::Setup { end, setups });
}

/// Each of the three lengths, and pairs of them: 0, slightly or much too short, or too long.
fn wrong(right: Shape) -> Vec<Shape> {
    let room = Shape::right(ROOM);
    let mut shapes = Vec::new();
    for length in lengths(right.times, 512, room.times) {
        let (times, prices) = (length, length);
        shapes.push(Shape { times, ..right });
        shapes.push(Shape { prices, ..right });
        shapes.push(Shape {
            times,
            prices,
            ..right
        });
    }
    for stocks in lengths(right.stocks, 2, ROOM) {
        shapes.push(Shape { stocks, ..right });
    }
    shapes
}

/// Wrong lengths, up to the room that there is.
fn lengths(right: usize, step: usize, room: usize) -> Vec<usize> {
    let mut lengths = vec![0, 1, right + 1, right + step];
    lengths.extend(right.checked_sub(1));
    lengths.extend(right.checked_sub(step));
    lengths.retain(|&length| length != right && length <= room);
    lengths
}

/// Makes every kind of call but setup, on stocks that exist and stocks that do not.
fn every_call(run: &mut Run, book: &mut Book, shape: Shape) {
    let count = shape.stocks as u32;
    let last = count.saturating_sub(1);
    for stock in [0, last, count, count + 1, 1 << 23, 1 << 31, u32::MAX] {
        let time = run.chance.pick(&[0, 1, u32::MAX]);
        let mut play = |call: Call| {
            book.play_shaped(&mut run.tally, shape, &call);
        };
        play(Call::Read { stock });
        play(Call::Next { stock });
        play(Call::Totals { stock });
        play(Call::Settle { stock, time });
        for letter in Letter::ALL {
            play(Call::Tell(Message {
                letter,
                stock,
                time,
                participant: 0,
                price: 10_000,
                bid: 9_999,
                offer: 10_001,
            }));
        }
    }
}

/// Setup lists of the wrong length, also with numbers that are out of range.
fn lists(run: &mut Run, book: &mut Book, stocks: usize) {
    let right = 4 * stocks;
    let mut lengths = lengths(right, 4, right + 4);
    lengths.extend([right + 2, right + 512]);
    for length in lengths {
        for end in [SHORTEST, 0] {
            let mut setups = setups::list(&mut run.chance, stocks + 128);
            setups.truncate(length);
            let call = Call::Setup { end, setups };
            book.play_shaped(&mut run.tally, Shape::right(stocks), &call);
        }
    }
}

/// Each number of a setup at the edges of its range and past them, in each of the stocks.
fn ranges(run: &mut Run, book: &mut Book, stocks: usize) {
    let numbers = [0, 1, 2, 3, 4, 15, 16, HIGHEST, HIGHEST + 1, u32::MAX];
    for place in 0..4 * stocks {
        for number in numbers {
            let mut setups = setups::list(&mut run.chance, stocks);
            setups[place] = number;
            let end = setups::end(&mut run.chance);
            let call = Call::Setup { end, setups };
            book.play_shaped(&mut run.tally, Shape::right(stocks), &call);
        }
    }
    for edge in [SHORTEST, LONGEST] {
        for end in [edge - 1, edge, edge + 1, 0, u32::MAX] {
            let setups = setups::list(&mut run.chance, stocks);
            let call = Call::Setup { end, setups };
            book.play_shaped(&mut run.tally, Shape::right(stocks), &call);
        }
    }
}
