//! `fractions` reads a day from standard input and prints, one per line, where its references and means are fractions or next to an edge:
//!
//! - `fraction made`: a reference whose count does not divide its sum; `fraction p`, `fraction w` and `fraction left`: p, w in Trading, or
//!   a Limit that ends with an empty window keeps such a reference;
//! - `cent under` and `cent reached`: such a reference gives a band at most a hundredth of a ten-thousandth before its half cent or past it;
//! - `percent above-stays` and the like: the Test finds a mean at most half a ten-thousandth away from one percent above or below.

use std::io;

use generate::edges::{past_one_percent, window, Band};
use generate::replay::{replay, Step};
use second::{Mean, Stock, LIMIT, TRADING};

fn main() {
    replay(io::stdin().lock(), &mut |step: Step| {
        print_fraction(&step);
        print_cents(&step);
        print_percent(&step);
    });
}

fn is_fraction(mean: Mean) -> bool {
    mean.count != 0 && mean.sum % mean.count != 0
}

fn print_fraction(step: &Step) {
    let (before, after) = (step.before, step.after);
    if !is_fraction(after.reference) {
        return;
    }
    if after.reference != before.reference {
        println!("fraction made");
    } else if step.mark == b'p' {
        println!("fraction p");
    } else if step.mark == b'w' && before.state == TRADING {
        println!("fraction w");
    } else if has_left_limit(step) && after.trades.is_empty() {
        println!("fraction left");
    }
}

/// Whether a quote ended Limit, which may have begun again.
fn has_left_limit(step: &Step) -> bool {
    let anew = step.after.reference_start != step.before.reference_start;
    step.before.state == LIMIT && step.mark == b'Q' && anew
}

/// The time that decides k, if bands are in force.
fn time_of_bands(stock: &Stock) -> Option<u32> {
    match stock.state {
        TRADING => Some(stock.clock),
        LIMIT => Some(stock.limit_entry),
        _ => None,
    }
}

fn print_cents(step: &Step) {
    let (stock, mean) = (step.after, step.after.reference);
    let anew = mean != step.before.reference || matches!(step.mark, b'p' | b'w');
    let Some(time) = time_of_bands(stock).filter(|_| anew && is_fraction(mean)) else {
        return;
    };
    for band in Band::both(stock, time, mean) {
        let past = band.past_half_cent(mean);
        if band.is_positive(mean) && past.unsigned_abs() <= mean.count {
            println!("cent {}", if past < 0 { "under" } else { "reached" });
        }
    }
}

fn print_percent(step: &Step) {
    let (before, mean) = (step.before, window(step.after));
    let hold_ended = step.mark == b'h' || before.hold_ended != 0;
    let tests = matches!(step.mark, b'T' | b'v' | b'h') && before.state == TRADING && hold_ended;
    if !tests || mean.count == 0 {
        return;
    }
    let half = 50 * mean.count * before.reference.count;
    let sides = past_one_percent(mean, before.reference);
    for (past, side) in sides.into_iter().zip(["above", "below"]) {
        if past.unsigned_abs() <= half {
            println!(
                "percent {side}-{}",
                if past < 0 { "stays" } else { "moves" }
            );
        }
    }
}
