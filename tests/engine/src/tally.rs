//! Counts calls and results, and prints them: each line has a name and a row of counts.

use bytes::{Call, Given};

use crate::counted::Counted;
use crate::exact::{Exact, Step, ROUNDED, WRITTEN};

/// The kinds of call, in the order of the table's rows.
const KINDS: [&str; 11] = [
    "setup", "settle", "read", "next", "totals", "T", "Q", "O", "P", "R", "X",
];

/// The numbers that the rules can give for each kind of call.
const POSSIBLE: [&[usize]; 11] = [
    &[0, 1, 2],
    &[0, 1, 3, 4, 14],
    &[0, 1, 3],
    &[0, 1, 3],
    &[0, 1, 3],
    &[0, 1, 3, 4, 5, 6, 7, 11, 12, 13],
    &[0, 1, 3, 4, 5, 6, 7],
    &[0, 1, 3, 4, 5, 6, 7, 8, 9, 15],
    &[0, 1, 3, 4, 5, 6, 7, 8, 9, 16],
    &[0, 1, 3, 4, 5, 6, 7, 8, 9, 10],
    &[0, 1, 3, 4, 5, 6, 7, 8, 9, 10],
];

/// Numbers run from 0 to 16.
const NUMBERS: usize = 17;
const MARKS: &[u8; 8] = b"zwxpcvfh";
const DIFFERENCES_AT_MOST: u64 = 10;

#[derive(Default)]
pub struct Tally {
    /// A row per kind of call, a column per number.
    table: [[u64; NUMBERS]; 11],
    /// A row per kind of book, in the order in which they are played, a column per kind of call.
    parts: Vec<(&'static str, [u64; 11])>,
    /// How many answers had each state.
    states: [u64; 6],
    /// The moments that were done, and those that `next` announced.
    marks: [u64; 8],
    coming: [u64; 8],
    /// Calls answered 1 though the arrays had the right lengths.
    rubbish: u64,
    exact: Exact,
    totals: Counted,
    differences: u64,
}

fn row(call: &Call) -> usize {
    match call {
        Call::Setup { .. } => 0,
        Call::Settle { .. } => 1,
        Call::Read { .. } => 2,
        Call::Next { .. } => 3,
        Call::Totals { .. } => 4,
        Call::Tell(message) => 5 + message.letter as usize,
    }
}

fn print_row<T: std::fmt::Display>(name: &str, cells: &[T]) {
    print!("{name:<11}");
    for cell in cells {
        print!("{cell:>8}");
    }
    println!();
}

impl Tally {
    /// Counts the following calls under this kind of book.
    pub fn begin(&mut self, part: &'static str) {
        self.parts.push((part, [0; 11]));
    }

    pub fn count(&mut self, call: &Call, given: &Given, good_shape: bool) {
        let number = given.answer.number as usize;
        self.table[row(call)][number] += 1;
        if let Some((_, calls)) = self.parts.last_mut() {
            calls[row(call)] += 1;
        }
        let is_setup = matches!(call, Call::Setup { .. });
        let is_next = matches!(call, Call::Next { .. });
        let has_values = !is_setup && !is_next && !matches!(call, Call::Totals { .. });
        if has_values && !matches!(number, 1..=3) {
            self.states[given.answer.state as usize] += 1;
        }
        if !is_setup && number == 1 && good_shape {
            self.rubbish += 1;
        }
        let marks = if is_next {
            &mut self.coming
        } else {
            &mut self.marks
        };
        for (count, &mark) in marks.iter_mut().zip(MARKS) {
            *count += u64::from(given.mark == u32::from(mark));
        }
    }

    /// Counts what a call did to the stock that it names.
    pub fn count_step(&mut self, step: &Step) {
        if step.answer.number == 0 {
            self.exact.count(step);
        }
        self.totals.count(step);
    }

    /// Counts a difference, and stops the test after a few of them.
    pub fn differ(&mut self) {
        self.differences += 1;
        if self.differences == DIFFERENCES_AT_MOST {
            self.print();
            std::process::exit(1);
        }
    }

    fn calls(&self) -> u64 {
        self.table.iter().flatten().sum()
    }

    /// Prints the tables. True if everything that can occur did occur, and nothing differs.
    pub fn print(&self) -> bool {
        self.print_tables();
        let missing = self.missing();
        for line in &missing {
            println!("never seen: {line}");
        }
        let calls = thousands(self.calls());
        println!("{calls} calls, {} differ", self.differences);
        missing.is_empty() && self.differences == 0
    }

    fn print_tables(&self) {
        print_row(
            " number",
            &std::array::from_fn::<usize, NUMBERS, _>(|number| number),
        );
        for (kind, row) in KINDS.iter().zip(&self.table) {
            print_row(kind, row);
        }
        print_row(" call", &KINDS);
        for (part, calls) in &self.parts {
            print_row(part, calls);
        }
        print_row(" state", &[0, 1, 2, 3, 4, 5]);
        print_row("states", &self.states);
        print_row(" mark", &MARKS.map(char::from));
        print_row("marks", &self.marks);
        print_row("coming", &self.coming);
        print_row("answered-1", &[self.rubbish]);
        print_row(" reference", &WRITTEN);
        print_row("references", &self.exact.written);
        print_row(" rounded", &ROUNDED);
        print_row("exact", &self.exact.rounded);
        for row in self.totals.rows() {
            print_row(" totals", row.titles);
            print_row(row.name, row.counts);
        }
    }

    /// What should have occurred and did not.
    fn missing(&self) -> Vec<String> {
        let mut missing = Vec::new();
        for ((kind, row), possible) in KINDS.iter().zip(&self.table).zip(POSSIBLE) {
            let unseen = possible.iter().filter(|&&number| row[number] == 0);
            missing.extend(unseen.map(|number| format!("{number} of {kind}")));
        }
        for (state, &count) in self.states.iter().enumerate() {
            missing.extend((count == 0).then(|| format!("state {state}")));
        }
        for (&mark, (done, coming)) in MARKS.iter().zip(self.marks.iter().zip(self.coming)) {
            missing.extend((*done == 0).then(|| format!("mark {}", char::from(mark))));
            missing.extend((coming == 0).then(|| format!("{} to come", char::from(mark))));
        }
        missing.extend((self.rubbish == 0).then(|| "rubbish".to_string()));
        let (written, rounded) = (&self.exact.written, &self.exact.rounded);
        let titles = WRITTEN.iter().chain(&ROUNDED);
        for (title, &count) in titles.zip(written.iter().chain(rounded)) {
            missing.extend((count == 0).then(|| format!("reference: {title}")));
        }
        for row in self.totals.rows() {
            let unseen = row.titles.iter().zip(row.counts);
            let unseen = unseen.filter(|(_, &count)| count == 0);
            missing.extend(unseen.map(|(title, _)| format!("{}: {title}", row.name)));
        }
        missing
    }
}

/// A number with commas between groups of three digits.
fn thousands(number: u64) -> String {
    let digits = number.to_string();
    let mut text = String::new();
    for (place, digit) in digits.chars().enumerate() {
        if place > 0 && (digits.len() - place) % 3 == 0 {
            text.push(',');
        }
        text.push(digit);
    }
    text
}
