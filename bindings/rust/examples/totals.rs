//! Plays a day of up to 64 stocks, as the program `day` does, and prints the day totals of each stock: a line with the stock, the
//! milliseconds in each state (Waiting, Trading, Limit, Paused, Late pause, Closed), the numbers of limit states and of pauses, and the
//! highest and the lowest trade, 0 for none. They are as of the stock's last accepted message or moment. With `--table` it prints a table
//! with headings, times in hours and prices in dollars. A malformed line ends the program with status 1, and then no totals are printed.
//!
//!     cargo run --example totals < ../../examples/day.txt
//!     cargo run --example totals -- --table < ../../examples/day.txt

mod tape;

use std::env;
use std::io::{self, Write};
use std::process::ExitCode;
use sumpheron::{Book, Refusal, Totals};

const HEADINGS: [&str; 11] = [
    "Stock",
    "Waiting",
    "Trading",
    "Limit",
    "Paused",
    "Late pause",
    "Closed",
    "Limit states",
    "Pauses",
    "Highest",
    "Lowest",
];

/// The cells of a stock, one for each heading.
type Row = [String; HEADINGS.len()];

fn main() -> io::Result<ExitCode> {
    let arguments: Vec<_> = env::args_os().skip(1).collect();
    let table = arguments == ["--table"];
    if !table && !arguments.is_empty() {
        eprintln!("usage: totals [--table]");
        return Ok(ExitCode::from(2));
    }
    let played = tape::play(&tape::read()?, &mut |_, _, _, _| ());
    let totals = played.map_err(|fault| fault.to_string());
    let totals = totals.and_then(|book| all(&book).map_err(|refusal| refusal.to_string()));
    let rows = match totals {
        Ok(totals) if table => in_columns(&totals),
        Ok(totals) => plain(&totals),
        Err(fault) => {
            eprintln!("totals: {fault}");
            return Ok(ExitCode::FAILURE);
        }
    };
    io::stdout().write_all((rows.join("\n") + "\n").as_bytes())?;
    Ok(ExitCode::SUCCESS)
}

/// The totals of every stock.
fn all(book: &Book) -> Result<Vec<Totals>, Refusal> {
    let stocks = 0..book.stocks() as u32;
    stocks.map(|stock| book.totals(stock)).collect()
}

/// A line of numbers for each stock.
fn plain(totals: &[Totals]) -> Vec<String> {
    let number = |number: u32| number.to_string();
    let price = |price: Option<u32>| number(price.unwrap_or(0));
    let stocks = totals.iter().enumerate();
    stocks
        .map(|(stock, totals)| row(stock, totals, number, price).join(" "))
        .collect()
}

/// The lines of the table: each column is as wide as its widest cell, and everything is aligned to the right.
fn in_columns(totals: &[Totals]) -> Vec<String> {
    let stocks = totals.iter().enumerate();
    let mut rows = vec![HEADINGS.map(str::to_owned)];
    rows.extend(stocks.map(|(stock, totals)| row(stock, totals, clock, dollars)));
    let width = |column: usize| rows.iter().map(|row| row[column].len()).max().unwrap_or(0);
    let line = |row: &Row| {
        let cells = row.iter().enumerate();
        let cells = cells.map(|(column, cell)| format!("{cell:>0$}", width(column)));
        cells.collect::<Vec<_>>().join("  ")
    };
    rows.iter().map(line).collect()
}

/// The row of a stock, with its times and its prices as the functions write them.
fn row(
    stock: usize,
    totals: &Totals,
    time: impl Fn(u32) -> String,
    price: impl Fn(Option<u32>) -> String,
) -> Row {
    let spent = &totals.spent;
    [
        stock.to_string(),
        time(spent.waiting),
        time(spent.trading),
        time(spent.limit),
        time(spent.paused),
        time(spent.late_pause),
        time(spent.closed),
        totals.limit_states.to_string(),
        totals.pauses.to_string(),
        price(totals.highest),
        price(totals.lowest),
    ]
}

/// Milliseconds as hours, minutes and seconds.
fn clock(time: u32) -> String {
    let (minutes, milliseconds) = (time / 60_000, time % 60_000);
    let (hours, minutes) = (minutes / 60, minutes % 60);
    let (seconds, milliseconds) = (milliseconds / 1_000, milliseconds % 1_000);
    format!("{hours}:{minutes:02}:{seconds:02}.{milliseconds:03}")
}

/// A price in dollars; `-` if there is none.
fn dollars(price: Option<u32>) -> String {
    let written = |price| format!("{}.{:04}", price / 10_000, price % 10_000);
    price.map_or("-".to_owned(), written)
}
