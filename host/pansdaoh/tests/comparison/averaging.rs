//! The mean wait (C-17).

use pansdaoh::{calls, Settings};
use reference::generate::{list, list_of, Random};
use reference::waits::Calls;
use reference::{yards, Mean, Refusal};

use crate::compare::each_settings;
use crate::full_size::settings_with;

/// The library's call, held against that of the reference.
const CALLS: Calls = Calls { mean: compare, elapsed };

/// Averages on both sides.
pub fn compare(list: &[u8], [n, p, layout, copies]: yards::Settings) -> Result<Mean, Refusal> {
    let result = reference::mean(list, n, p, layout, copies);
    let (number, place, [sum, divisor, quotient, remainder]) = match result {
        Ok(mean) => (0, 0, [mean.sum, mean.divisor, mean.quotient, mean.remainder]),
        Err(Refusal { number, place }) => (number, place, [0; 4]),
    };
    let given = list.to_vec();
    let mean = calls::mean(&given, n, p, layout, copies);
    assert_eq!(
        mean,
        calls::Mean { number, place, sum, divisor, quotient, remainder },
        "n {n}, p {p}, layout {layout}, copies {copies}"
    );
    assert!(given == list, "the list was touched");
    result
}

fn elapsed(image: &[u8], tag: u64, tune_in: u64) -> u64 {
    pansdaoh::lookup(image, tag, tune_in, &mut [0; 27 * 200]).unwrap().elapsed
}

#[test]
fn lists() {
    CALLS.lists();
}

#[test]
fn refusals() {
    CALLS.refusals();
}

/// Numbers at and far beyond the bounds of each setting.
#[test]
fn any_numbers() {
    let random = &mut Random::new(1);
    for lines in [0, 1, 5, 17] {
        let list = list(random, lines, 1);
        each_settings(random, |settings| {
            let _ = compare(&list, settings);
        });
    }
}

#[test]
fn any_lists() {
    CALLS.any_lists(5_000);
}

#[test]
fn each_hearing() {
    CALLS.each_hearing();
}

#[test]
fn limits() {
    CALLS.limits();
}

#[test]
fn full_size() {
    CALLS.full_size();
}

/// N is the most there is, and one more.
#[test]
fn longest_cycle() {
    let random = &mut Random::new(2);
    for (buckets, number) in [(99_999, 0), (100_000, 6)] {
        let (lines, settings) = settings_with(buckets);
        let mean = compare(&list(random, lines, 100_000), settings);
        assert_eq!(mean.map_or_else(|refusal| refusal.number, |_| 0), number);
    }
}

/// As Rust sees it: list S of the sample yard.
#[test]
fn results() {
    let settings = |copies| Settings { n: 2, p: 1, layout: 1, copies };
    let mean = |tags: &[u64], copies| pansdaoh::mean(&list_of(tags), settings(copies));
    let wait = pansdaoh::Mean { sum: 600, divisor: 48, quotient: 12, remainder: 24 };
    assert_eq!(mean(&[3, 5, 5, 8, 9], 1), Ok(wait));
    let by = |number, place| Err(pansdaoh::Refusal { number, place });
    assert_eq!(mean(&[3, 5, 5, 8, 9], 3), by(5, 0));
    assert_eq!(mean(&[3, 5, 4], 0), by(4, 2));
    assert_eq!(mean(&[], 0), by(17, 0));
}
