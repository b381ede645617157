//! Plays a day of up to 64 stocks: reads it from standard input, settles each stock before each message, and prints the results in the
//! format of docs/RULES.md, "The day program". A malformed line ends the program with status 1.
//!
//!     cargo run --example day < ../../examples/day.txt

mod tape;

use std::io;
use std::process::ExitCode;
use sumpheron::{Answer, Number, Quote, Refusal};

fn main() -> io::Result<ExitCode> {
    Ok(match tape::play(&tape::read()?, &mut print) {
        Ok(_) => ExitCode::SUCCESS,
        Err(fault) => {
            eprintln!("day: {fault}");
            ExitCode::FAILURE
        }
    })
}

/// Prints the number of a result and the stock's values, which are zeros if the call was about no stock.
fn print(stock: u32, time: u32, letter: &str, result: Result<Answer, Refusal>) {
    let (number, answer) = match result {
        Ok(answer) => (Number::Done, Some(answer)),
        Err(refusal) => (refusal.number, refusal.answer),
    };
    let state = answer.map_or(0, |stock| stock.state.raw());
    let reference = answer.and_then(|stock| stock.reference).unwrap_or(0);
    let bands = answer.and_then(|stock| stock.bands);
    let (lower, upper) = bands.map_or((0, 0), |bands| (bands.lower, bands.upper));
    let quote =
        |quote: Option<Quote>| quote.map_or((0, 0), |quote| (quote.price, quote.flag.raw()));
    let (bid, bid_flag) = quote(answer.and_then(|stock| stock.bid));
    let (offer, offer_flag) = quote(answer.and_then(|stock| stock.offer));
    print!(
        "{stock} {time} {letter} {} {state} {reference}",
        number.raw()
    );
    println!(" {lower} {upper} {bid} {bid_flag} {offer} {offer_flag}");
}
