//! Plays a whole market: 8,192 stocks in 128 books, on one thread and on every core. Each book belongs to one thread.
//!
//!     market table HEADER       prints the tables for 1 to 128 books, under this header
//!     market row BOOKS THREADS  plays this many books on this many threads, and prints their row of both tables

mod feed;
mod lane;
mod run;
mod sent;
mod source;
mod storm;
mod tally;
mod times;

use std::process::Command;
use std::thread;

use run::Found;
use sent::Sent;
use sumpheron::MOST_STOCKS;

const BOOKS: [usize; 8] = [1, 2, 4, 8, 16, 32, 64, 128];

fn main() {
    let words: Vec<String> = std::env::args().skip(1).collect();
    let words: Vec<&str> = words.iter().map(String::as_str).collect();
    match words[..] {
        ["table", header] => print_tables(header),
        ["row", books, threads] => print_row(number(books), number(threads)),
        _ => panic!("usage: market table HEADER | market row BOOKS THREADS"),
    }
}

fn number(word: &str) -> usize {
    word.parse().expect("a number")
}

fn print_tables(header: &str) {
    println!("{header}");
    let cores = thread::available_parallelism().map_or(1, |cores| cores.get());
    let traffic = print_times(1);
    if cores > 1 {
        assert_eq!(traffic, print_times(cores), "threads change the traffic");
    }
    println!("\nThe traffic:\n");
    println!("| books | messages | quotes to a trade | calls to a message | messages refused | limit states (left without a pause) | pauses (declared by the primary) | reopenings | trades held, mean (most) |");
    println!("|---|---|---|---|---|---|---|---|---|");
    print!("{traffic}");
}

/// Prints the table of times for this many threads, and returns the rows of the traffic table.
fn print_times(threads: usize) -> String {
    println!("\nThreads: {threads}, and never more than books\n");
    println!("| books | stocks | million messages a second | median, ns a message | 99.9 % | most | ns a call | lent, bytes | traffic, MB | process, MB |");
    println!("|---|---|---|---|---|---|---|---|---|---|");
    let mut traffic = String::new();
    for books in BOOKS {
        let rows = rows(books, threads);
        let (times, brought) = rows.split_once('\n').expect("there are two rows");
        println!("{times}");
        traffic += brought;
    }
    traffic
}

/// What `market row` prints. It runs in its own process, so that the memory is that of this row alone.
fn rows(books: usize, threads: usize) -> String {
    let program = std::env::current_exe().expect("the program has a path");
    let words = [books.to_string(), threads.to_string()];
    let output = Command::new(program).arg("row").args(words).output();
    let output = output.expect("the program can be run");
    let said = String::from_utf8_lossy(&output.stderr);
    assert!(output.status.success(), "market row: {said}");
    String::from_utf8(output.stdout).expect("a row is text")
}

fn print_row(books: usize, threads: usize) {
    let found = run::play(books, threads);
    println!("| {books} | {} |", times(books, &found).join(" | "));
    println!("| {books} | {} |", traffic(&found).join(" | "));
}

fn times(books: usize, found: &Found) -> [String; 9] {
    let (repeats, calls) = (found.repeats as f64, found.tally.count.calls as f64);
    let played = repeats * found.messages as f64;
    [
        format!("{}", MOST_STOCKS * books),
        format!("{:.2}", played / found.passed.as_secs_f64() / 1e6),
        format!("{}", found.times.at(500)),
        format!("{}", found.times.at(999)),
        format!("{}", found.times.at(1_000)),
        format!("{:.0}", found.worked.as_nanos() as f64 / (repeats * calls)),
        format!("{}", found.lent),
        megabytes(size_of::<Sent>() as u64 * found.messages),
        megabytes(most_memory()),
    ]
}

fn traffic(found: &Found) -> [String; 8] {
    let (tally, messages) = (&found.tally, found.messages as f64);
    let refused = 100.0 * tally.count.refused as f64 / messages;
    let held = tally.held as f64 / messages;
    [
        format!("{}", found.messages),
        format!("{:.1}", tally.quotes as f64 / tally.trades as f64),
        format!("{:.2}", tally.count.calls as f64 / messages),
        format!("{refused:.2} %"),
        format!("{} ({})", tally.limits, tally.left),
        format!("{} ({})", tally.pauses, tally.declared),
        format!("{}", tally.reopenings),
        format!("{held:.0} ({})", tally.most_held),
    ]
}

fn megabytes(bytes: u64) -> String {
    format!("{:.1}", bytes as f64 / 1e6)
}

/// The peak memory of this process, in bytes.
fn most_memory() -> u64 {
    let status = std::fs::read_to_string("/proc/self/status").expect("Linux has it");
    let line = status.lines().find_map(|line| line.strip_prefix("VmHWM:"));
    let number = line.and_then(|line| line.trim_end_matches("kB").trim().parse().ok());
    1_024 * number.unwrap_or(0_u64)
}
