//! Counts instructions with valgrind, which runs this program again for one side of one case.

use std::process::Command;

use calls::call::{Call, Glance};
use calls::sides::{Library, Second, Side};

use crate::cases::{self, Case};

/// What the program does under valgrind: brings a side to a case's start, and plays the calls this many times.
pub fn run(case: usize, side: &str, times: usize) {
    let case = cases::ALL[case]();
    match side {
        "library" => play::<Library>(&case, times),
        "second" => play::<Second>(&case, times),
        _ => panic!("a side is library or second"),
    }
}

fn play<S: Side>(case: &Case, times: usize) {
    let mut side = S::new(&case.setups, case.end);
    side.play(&[Call::Setup], &mut Glance);
    side.play(&case.before, &mut Glance);
    for _ in 0..times {
        side.play(&case.calls, &mut Glance);
    }
}

/// Instructions per call: the difference between playing the calls once and not at all. `None` if valgrind is not installed.
pub fn instructions(case: usize, side: &str, counted: usize) -> Option<f64> {
    let [without, with] = ["0", "1"].map(|times| executed(&case.to_string(), side, times));
    Some((with? - without?) as f64 / counted as f64)
}

fn executed(case: &str, side: &str, times: &str) -> Option<u64> {
    let output = Command::new("valgrind")
        .args(["--tool=cachegrind", "--cache-sim=no"])
        .arg("--cachegrind-out-file=/dev/null")
        .arg(std::env::current_exe().expect("the program has a path"))
        .args(["count", case, side, times])
        .output()
        .ok()
        .filter(|output| output.status.success())?;
    let said = String::from_utf8_lossy(&output.stderr);
    let line = said.lines().find(|line| line.contains("refs:"))?;
    let digits = line.rsplit(' ').next()?.replace(',', "");
    digits.parse().ok()
}
