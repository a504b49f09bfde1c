//! Measures the proved library and the ordinary program on the same files, in the same run. `bench/measure` runs it and prints its tables.
//!
//!     main times CASES [PATTERN]    for each case whose name has the pattern, a line: the name; least and median nanoseconds of the library; those of the ordinary program
//!     main names CASES [PATTERN]    the place of each case in the list, its uses, its bar, its goal and its name
//!     main alone CASES PLACE SIDE N    N calls of a case by one side, within the function `measured`, for a tool that counts instructions
//!     main stack                    the stack that each function of the library takes
//!
//! CASES is `all` or `growth`. Times: rounds in which one program after the other makes the same calls, so that both meet the machine in the same state. At the end of each round
//! answers, ledgers and buffers of the two are compared, so that both did the same work.
mod cases;
mod inputs;
mod ordinary;
#[path = "../host/rust/akubolinfe.rs"]
mod proved;
mod sides;
mod stack;

use cases::Case;
use sides::{Ordinary, Proved, Side};
use std::time::Instant;

const ROUNDS: usize = 200;
/// What a round of one side should take, in nanoseconds; and for prepared runs its calls, so that all rounds are a million uses.
const ROUND: f64 = 300_000.0;
const RUNS: u32 = 5;
/// The greatest ratio of any case.
const BAR: f64 = 1.25;

/// Calls that a tool counts by this function's name.
#[no_mangle]
#[inline(never)]
fn measured(side: &mut dyn Side, case: &Case, n: u32) {
    side.calls(case, n);
}

// Nanoseconds per use of so many calls.
fn round(side: &mut dyn Side, case: &Case, n: u32) -> f64 {
    let began = Instant::now();
    measured(side, case, n);
    began.elapsed().as_nanos() as f64 / f64::from(n) / case.uses as f64
}

fn calls_per_round(case: &Case, side: &mut dyn Side) -> u32 {
    if case.uses == cases::USES {
        return RUNS;
    }
    let once = round(side, case, 1).min(round(side, case, 1)) * case.uses as f64;
    (ROUND / once.max(1.0)).clamp(1.0, 5_000.0) as u32
}

fn least_and_median(mut times: Vec<f64>) -> (f64, f64) {
    times.sort_by(f64::total_cmp);
    (times[0], times[times.len() / 2])
}

fn measure(case: &Case) {
    let (mut proved, mut ordinary) = (Proved::prepared(case), Ordinary::prepared(case));
    let n = calls_per_round(case, &mut Proved::prepared(case));
    let (mut of_proved, mut of_ordinary) = (Vec::new(), Vec::new());
    for _ in 0..ROUNDS {
        of_proved.push(round(&mut proved, case, n));
        of_ordinary.push(round(&mut ordinary, case, n));
        assert_eq!(proved.answer(), ordinary.answer(), "{}", case.name);
        assert!(proved.answer().starts_with(&case.expected), "{}: {}", case.name, proved.answer());
        assert!(proved.state() == ordinary.state(), "{}", case.name);
    }
    let ((least, median), (ordinary_least, ordinary_median)) = (least_and_median(of_proved), least_and_median(of_ordinary));
    println!("{}\t{least:.1}\t{ordinary_least:.1}\t{median:.1}\t{ordinary_median:.1}", case.name);
}

// So many calls by one side; with both, each makes them, and what they leave is compared.
fn alone(case: &Case, side: &str, n: u32) {
    let mut sides: Vec<Box<dyn Side>> = Vec::new();
    if side != "ordinary" {
        sides.push(Box::new(Proved::prepared(case)));
    }
    if side != "proved" {
        sides.push(Box::new(Ordinary::prepared(case)));
    }
    for side in &mut sides {
        measured(&mut **side, case, n);
        assert!(side.answer().starts_with(&case.expected), "{}: {}", case.name, side.answer());
    }
    assert!(sides.windows(2).all(|two| two[0].state() == two[1].state()), "{}", case.name);
}

fn number<T: std::str::FromStr>(word: &str) -> T {
    word.parse().ok().expect("a number")
}

fn main() {
    let words: Vec<String> = std::env::args().skip(1).collect();
    let words: Vec<&str> = words.iter().map(String::as_str).collect();
    let cases = if words.get(1) == Some(&"growth") { cases::growth() } else { cases::all() };
    let pattern = words.get(2).copied().unwrap_or_default();
    let chosen = || cases.iter().enumerate().filter(|(_, case)| case.name.contains(pattern));
    match words.as_slice() {
        ["times", ..] => chosen().for_each(|(_, case)| measure(case)),
        ["names", ..] => {
            for (place, case) in chosen() {
                let goal = case.goal.map_or("-".to_string(), |goal| format!("{goal:.2}"));
                println!("{place}\t{}\t{BAR}\t{goal}\t{}", case.uses, case.name);
            }
        }
        ["alone", _, place, side, n] => alone(&cases[number::<usize>(place)], side, number(n)),
        ["stack"] => stack::measure(),
        _ => panic!("times, names, alone or stack"),
    }
}
