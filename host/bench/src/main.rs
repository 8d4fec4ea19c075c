//! Measures the calls of the library against those of the reference.
//!
//! `bench time figures call n p layout copies lines` prints nanoseconds a bucket
//! of library and reference: the best of several rounds, both sides in turn on
//! the same input.
//! `bench library` or `bench reference`, then `figures call n p layout copies
//! lines rounds`, only runs that call so often and prints the buckets of one
//! round, for a counter of instructions.
#![forbid(unsafe_code)]

mod calls;
mod yard;

use std::time::{Duration, Instant};

use calls::{Calls, Library, Reference};
use yard::Yard;

/// Rounds of one measurement: at least so many, and for at least that long.
const ROUNDS: u64 = 5;
const AT_LEAST: Duration = Duration::from_millis(200);

fn main() {
    let arguments: Vec<String> = std::env::args().skip(1).collect();
    let [what, figures, call, numbers @ ..] = &arguments[..] else {
        panic!("time, library or reference, then figures, a call and its numbers");
    };
    let numbers: Vec<u64> = numbers.iter().map(|text| text.parse().unwrap()).collect();
    let &[n, p, layout, copies, lines, ref rounds @ ..] = &numbers[..] else {
        panic!("n p layout copies lines");
    };
    let yard = &mut Yard::new(figures, [n, p, layout, copies], lines);
    match (&what[..], rounds) {
        ("time", []) => time(yard, call),
        ("library", &[rounds]) => run::<Library>(yard, call, rounds),
        ("reference", &[rounds]) => run::<Reference>(yard, call, rounds),
        _ => panic!("rounds only for library or reference"),
    }
}

fn run<C: Calls>(yard: &mut Yard, call: &str, rounds: u64) {
    let mut buckets = 0;
    for _ in 0..rounds {
        buckets = yard.round::<C>(call);
    }
    println!("{buckets}");
}

fn time(yard: &mut Yard, call: &str) {
    let buckets = yard.round::<Library>(call);
    assert_eq!(buckets, yard.round::<Reference>(call));
    let mut best = [Duration::MAX; 2];
    let start = Instant::now();
    let mut rounds = 0;
    while rounds < ROUNDS || start.elapsed() < AT_LEAST {
        best[0] = best[0].min(timed::<Library>(yard, call));
        best[1] = best[1].min(timed::<Reference>(yard, call));
        rounds += 1;
    }
    let [library, reference] = best.map(|time| time.as_nanos() as f64 / buckets as f64);
    println!("{library:.1} {reference:.1}");
}

fn timed<C: Calls>(yard: &mut Yard, call: &str) -> Duration {
    let start = Instant::now();
    yard.round::<C>(call);
    start.elapsed()
}
