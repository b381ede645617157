//! Prints every number, state, flag and mark that has a name.
//!
//!     cargo run --example names

use std::fmt::Display;
use sumpheron::{Flag, Mark, Number, State};

fn print<T: From<u32> + Display + PartialEq>(kind: &str, unknown: fn(u32) -> T) {
    for number in (0..1_000).filter(|&number| T::from(number) != unknown(number)) {
        println!("{kind} {number} {}", T::from(number));
    }
}

fn main() {
    print("number", Number::Unknown);
    print("state", State::Unknown);
    print("flag", Flag::Unknown);
    print("mark", Mark::Unknown);
}
