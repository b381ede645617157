//! Compares the times of the library's calls with those of the second implementation and of the floor.
//!
//!     calls table HEADER           prints the cases' table under this header
//!     calls slowest                prints a table of the slowest single calls
//!     calls count CASE SIDE TIMES  plays a case's calls this many times, under valgrind

mod cases;
mod count;
mod days;
mod script;
mod slowest;
mod timing;

use cases::Case;

fn main() {
    let words: Vec<String> = std::env::args().skip(1).collect();
    let words: Vec<&str> = words.iter().map(String::as_str).collect();
    match words[..] {
        ["table", header] => print_table(header),
        ["slowest"] => print_slowest(),
        ["count", case, side, times] => count::run(number(case), side, number(times)),
        _ => panic!("usage: calls table HEADER | calls slowest | calls count CASE SIDE TIMES"),
    }
}

fn number(word: &str) -> usize {
    word.parse().expect("a number")
}

fn print_table(header: &str) {
    println!("{header}\n");
    println!("| case | library ns | second ns | floor ns | library/second, median | library/second, least | library/floor, median | library/floor, least | instructions library | instructions second |");
    println!("|---|---|---|---|---|---|---|---|---|---|");
    let cases: Vec<Case> = cases::ALL.iter().map(|make| make()).collect();
    for (index, (case, times)) in cases.iter().zip(timing::time(&cases)).enumerate() {
        let [one, other] =
            ["library", "second"].map(|side| count::instructions(index, side, case.counted));
        let cells = [
            cell(Some(times.library), 1),
            cell(Some(times.second), 1),
            cell(times.floor, 1),
            cell(Some(times.to_second), 2),
            cell(Some(times.library / times.second), 2),
            cell(times.to_floor, 2),
            cell(times.floor.map(|floor| times.library / floor), 2),
            cell(one, 0),
            cell(other, 0),
        ];
        println!("| {} | {} |", case.name, cells.join(" | "));
    }
}

/// A number with this many decimals, or a dash.
fn cell(value: Option<f64>, decimals: usize) -> String {
    value.map_or("-".to_string(), |value| format!("{value:.decimals$}"))
}

fn print_slowest() {
    println!("| slowest call of its kind | calls | library ns | second ns | library/second |");
    println!("|---|---|---|---|---|");
    for row in slowest::find() {
        let (library, second) = (row.library, row.second);
        let ratio = library as f64 / second as f64;
        println!(
            "| {} | {} | {library} | {second} | {ratio:.2} |",
            row.kind, row.calls
        );
    }
}
