//! The day program: standard input to standard output. `second totals` reads a day too, of up to 64 stocks,
//! and prints each stock's totals.

use std::env::args;
use std::io::{stdin, stdout};
use std::process::ExitCode;

fn main() -> ExitCode {
    let words: Vec<String> = args().skip(1).collect();
    let words: Vec<&str> = words.iter().map(String::as_str).collect();
    let done = match words[..] {
        [] => second::day::run(stdin().lock(), stdout().lock()).map(|()| true),
        ["totals"] => second::totals::run(stdin().lock(), stdout().lock()),
        _ => {
            eprintln!("usage: second [totals]");
            return ExitCode::from(2);
        }
    };
    match done {
        Ok(true) => ExitCode::SUCCESS,
        // A bad day has no totals. Or the output is closed: nobody is left to tell.
        Ok(false) | Err(_) => ExitCode::FAILURE,
    }
}
