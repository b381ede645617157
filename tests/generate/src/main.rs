//! `generate SEED` writes the day of this seed to standard output.

use std::io::{self, Write};
use std::process::ExitCode;

fn main() -> ExitCode {
    let seed = std::env::args().nth(1).and_then(|word| word.parse().ok());
    let Some(seed) = seed else {
        eprintln!("usage: generate SEED");
        return ExitCode::FAILURE;
    };
    match io::stdout().lock().write_all(&generate::day(seed)) {
        Ok(()) => ExitCode::SUCCESS,
        Err(_) => ExitCode::FAILURE,
    }
}
