//! `ties` reads a day from standard input and prints each tie of two moments, one pair of marks per line:
//! the moment that happens first, and another due at the same time, which happens next or, after z, never.

use std::io;

use generate::replay::{replay, Step};

fn main() {
    replay(io::stdin().lock(), &mut |step: Step| {
        if step.mark.is_ascii_lowercase() {
            print_ties(&step.before.moments());
        }
    });
}

/// Prints the first of these moments, which happens now, with each other moment of the same time.
fn print_ties(due: &[(u8, u32)]) {
    let (mark, time) = due[0];
    let others = due.iter().skip(1).take_while(|other| other.1 == time);
    for other in others {
        println!("{} {}", mark as char, other.0 as char);
    }
}
