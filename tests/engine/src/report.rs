//! Prints a difference.

use bytes::{field, Call};

use crate::book::Memory;
use crate::library::Numbers;

/// At most this many differing words are printed of one call.
const WORDS_AT_MOST: usize = 10;

/// The names of an answer's numbers.
const ANSWER: &str = "number state reference lower upper bid flag offer flag mark time, six times, limit states, pauses, highest, lowest";

/// Prints the call and both answers.
pub fn print(call: &Call, reader: &Numbers, library: &Numbers) {
    println!("differs: {call:?}");
    println!("  {ANSWER}");
    println!("  reader  {reader:?}");
    println!("  library {library:?}");
}

/// Prints the first words that differ.
pub fn print_words(reader: &Memory, library: &Memory) {
    let time = |place| format!("time {place}");
    let price = |place| format!("price {place}");
    let records = differing(&reader.records, &library.records, field::name);
    let times = differing(&reader.times, &library.times, time);
    let prices = differing(&reader.prices, &library.prices, price);
    for line in records.chain(times).chain(prices).take(WORDS_AT_MOST) {
        println!("  {line}");
    }
}

/// A line for each word of an array that is not the same on both sides.
fn differing<'a, const N: usize>(
    reader: &'a [[u32; N]],
    library: &'a [[u32; N]],
    name: impl Fn(usize) -> String + 'a,
) -> impl Iterator<Item = String> + 'a {
    let (ours, theirs) = (reader.as_flattened(), library.as_flattened());
    let unequal = (0..ours.len()).filter(move |&word| ours[word] != theirs[word]);
    let behind = reader.len() - 1;
    unequal.map(move |word| {
        let place = match word / N {
            0 => format!("guard in front, {}", name(word % N)),
            row if row == behind => format!("guard behind, {}", name(word % N)),
            row => format!("stock {}, {}", row - 1, name(word % N)),
        };
        let (ours, theirs) = (ours[word], theirs[word]);
        format!("{place}: reader {ours}, library {theirs}")
    })
}
