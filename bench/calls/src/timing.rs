//! Times the three sides in turn, so that a disturbance of the machine affects all of them.

use std::time::Duration;

use calls::call::{Call, Given, Glance};
use calls::clock::used;
use calls::sides::{Floor, Library, Second, Side};
use second::{Setup, HELD_AT_MOST};

use crate::cases::Case;

/// How often all cases are repeated, so that a busy period of the machine is spread over them.
const SWEEPS: usize = 5;
/// How often the three sides take turns in each case.
const ROUNDS: usize = 21;
/// How long one turn lasts.
const TURN: Duration = Duration::from_millis(2);

/// A case ready to be played.
struct Start {
    library: Library,
    second: Second,
    floor: Option<Floor>,
}

/// Nanoseconds per call, the least of all rounds, and the library's ratio to each other side, the median of the rounds.
pub struct Times {
    pub library: f64,
    pub second: f64,
    pub floor: Option<f64>,
    pub to_second: f64,
    pub to_floor: Option<f64>,
}

/// Brings both sides to the case's start, and checks that they give the same answers up to there and on all timed calls.
fn start(case: &Case) -> Start {
    let (mut library, mut second) = start_alike(&case.setups, case.end, &case.before);
    let start = (library.clone(), second.clone());
    let mut passes = Vec::new();
    for call in &case.calls {
        let stock = call.stock();
        passes.push((HELD_AT_MOST * stock, second.book[stock].trades.len()));
        play_alike(&mut library, &mut second, &[*call]);
    }
    let floor = case.has_floor.then(|| Floor {
        times: start.0.times.clone(),
        prices: start.0.prices.clone(),
        passes,
    });
    Start {
        library: start.0,
        second: start.1,
        floor,
    }
}

/// Both sides after setup and these calls; all their answers must be the same.
pub fn start_alike(setups: &[Setup], end: u32, calls: &[Call]) -> (Library, Second) {
    let mut library = Library::new(setups, end);
    let mut second = Second::new(setups, end);
    play_alike(&mut library, &mut second, &[Call::Setup]);
    play_alike(&mut library, &mut second, calls);
    (library, second)
}

fn play_alike(library: &mut Library, second: &mut Second, calls: &[Call]) {
    let (mut one, mut other): (Vec<Given>, Vec<Given>) = (Vec::new(), Vec::new());
    library.play(calls, &mut one);
    second.play(calls, &mut other);
    assert_eq!(one, other, "the library and the second answer differently");
}

/// The nanoseconds of the shortest stretch in one turn.
fn shortest(mut stretch: impl FnMut() -> Duration) -> f64 {
    let began = used();
    let mut least = stretch();
    while used() < began + TURN {
        least = least.min(stretch());
    }
    least.as_nanos() as f64
}

/// One turn of a side; bringing it back to the start is not timed.
fn turn<S: Side>(side: &mut S, start: &S, calls: &[Call]) -> f64 {
    shortest(|| {
        side.restore(start);
        let from = used();
        side.play(calls, &mut Glance);
        used() - from
    })
}

fn floor_turn(floor: &Floor) -> f64 {
    shortest(|| {
        let from = used();
        floor.play();
        used() - from
    })
}

/// The time of one call in one round for the library, the second and the floor; NaN if there is no floor.
type Round = [f64; 3];

/// Times all cases.
pub fn time(cases: &[Case]) -> Vec<Times> {
    let starts: Vec<Start> = cases.iter().map(start).collect();
    let mut rounds = vec![Vec::new(); cases.len()];
    for _ in 0..SWEEPS {
        for ((case, start), rounds) in cases.iter().zip(&starts).zip(&mut rounds) {
            take_turns(case, start, rounds);
        }
    }
    rounds.iter().map(|rounds| times(rounds)).collect()
}

fn take_turns(case: &Case, start: &Start, rounds: &mut Vec<Round>) {
    let (mut library, mut second) = (start.library.clone(), start.second.clone());
    for _ in 0..ROUNDS {
        let one = turn(&mut library, &start.library, &case.calls);
        let other = turn(&mut second, &start.second, &case.calls);
        let least = start.floor.as_ref().map_or(f64::NAN, floor_turn);
        rounds.push([one, other, least].map(|time| time / case.counted as f64));
    }
}

fn times(rounds: &[Round]) -> Times {
    let least = |of: fn(&Round) -> f64| sorted(rounds, of)[0];
    let median = |of: fn(&Round) -> f64| sorted(rounds, of)[rounds.len() / 2];
    let known = |value: f64| (!value.is_nan()).then_some(value);
    Times {
        library: least(|round| round[0]),
        second: least(|round| round[1]),
        floor: known(least(|round| round[2])),
        to_second: median(|round| round[0] / round[1]),
        to_floor: known(median(|round| round[0] / round[2])),
    }
}

fn sorted(rounds: &[Round], of: fn(&Round) -> f64) -> Vec<f64> {
    let mut values: Vec<f64> = rounds.iter().map(of).collect();
    values.sort_by(f64::total_cmp);
    values
}
