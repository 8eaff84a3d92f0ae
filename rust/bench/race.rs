//! Timing of two programs in turn, and the table of the results.

use std::time::{Duration, Instant};

/// How long each row is tried.
const BUDGET: Duration = Duration::from_millis(1_200);

/// The fewest rounds of a row, whatever they take.
const ROUNDS: usize = 15;

/// The best times in nanoseconds.
#[derive(Clone, Copy)]
pub struct Race {
    pub proved: f64,
    pub plain: f64,
}

/// Runs both in turn.
pub fn race(mut proved: impl FnMut(), mut plain: impl FnMut()) -> Race {
    let [proved, plain] = best_of([&mut proved, &mut plain]);
    Race { proved, plain }
}

/// Runs the programs in turn, each first in as many rounds, so that what else
/// the machine does hits all; the best time of each counts, in nanoseconds.
pub fn best_of<const N: usize>(programs: [&mut dyn FnMut(); N]) -> [f64; N] {
    let mut best = [f64::INFINITY; N];
    let begun = Instant::now();
    let mut round = 0;
    while round < ROUNDS || begun.elapsed() < BUDGET {
        for turn in round..round + N {
            let time = nanoseconds(programs[turn % N]);
            best[turn % N] = best[turn % N].min(time);
        }
        round += 1;
    }
    best
}

/// The best time of one program alone, in nanoseconds.
pub fn best(run: &mut dyn FnMut()) -> f64 {
    (0..ROUNDS)
        .map(|_| nanoseconds(run))
        .fold(f64::INFINITY, f64::min)
}

fn nanoseconds(run: &mut dyn FnMut()) -> f64 {
    let begun = Instant::now();
    run();
    begun.elapsed().as_nanos() as f64
}

pub fn print_head() {
    println!(
        "{:<58} {:>11} {:>11} {:>6} {:>8} {:>10}",
        "", "proved", "plain Rust", "ratio", "ns/char", "x ordinary"
    );
}

/// A time in the column of plain Rust, with nothing to set it beside: `calls`
/// calls took it.
pub fn print_information(name: &str, time: f64, calls: usize) {
    println!(
        "    for information: {name:<37} {:>11} {:>11}",
        "",
        per_call(time, calls)
    );
}

/// The time of an operation beside that of another one of the library, which
/// stands in the column of plain Rust.
pub fn print_beside(name: &str, time: f64, other: f64, calls: usize) {
    println!(
        "    {name:<54} {:>11} {:>11} {:>6.2}",
        per_call(time, calls),
        per_call(other, calls),
        time / other,
    );
}

/// Under a row, how many bytes its programs take in a second: each took all of
/// `bytes` once in its time.
pub fn print_rates(race: Race, bytes: usize) {
    let rate = |time: f64| format!("{:.2} GB/s", bytes as f64 / time);
    println!(
        "    {:<54} {:>11} {:>11}",
        "of index",
        rate(race.proved),
        rate(race.plain)
    );
}

fn per_call(time: f64, calls: usize) -> String {
    format!("{:.2} µs", time / calls as f64 / 1_000.0)
}

/// A row of `calls` calls over `chars` characters in all. `ordinary` is the
/// cost of an ordinary character in nanoseconds, for adversarial rows.
pub fn print_row(name: &str, race: Race, calls: usize, chars: usize, ordinary: Option<f64>) {
    let per_char = race.proved / chars as f64;
    let beside = ordinary.map_or_else(String::new, |ordinary| {
        format!("{:.2}", per_char / ordinary)
    });
    println!(
        "{name:<58} {:>11} {:>11} {:>6.2} {per_char:>8.2} {beside:>10}",
        per_call(race.proved, calls),
        per_call(race.plain, calls),
        race.proved / race.plain,
    );
}
