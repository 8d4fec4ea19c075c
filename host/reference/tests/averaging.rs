//! The mean wait (C-17), the fast version against the slow one.

use reference::waits::Calls;
use reference::yards::Settings;
use reference::{literal, lookup, mean, Mean, Refusal};

/// The fast call, held against the slow one.
const CALLS: Calls = Calls { mean: compare, elapsed };

/// The fast call alone, for longer lists.
const FAST: Calls = Calls { mean: fast, elapsed };

fn fast(list: &[u8], [n, p, layout, copies]: Settings) -> Result<Mean, Refusal> {
    mean(list, n, p, layout, copies)
}

fn compare(list: &[u8], [n, p, layout, copies]: Settings) -> Result<Mean, Refusal> {
    let fast = mean(list, n, p, layout, copies);
    let slow = literal::mean(list, n, p, layout, copies);
    assert_eq!(fast, slow, "n {n}, p {p}, layout {layout}, copies {copies}, {list:?}");
    fast
}

fn elapsed(image: &[u8], tag: u64, tune_in: u64) -> u64 {
    lookup(image, tag, tune_in, &mut [0; 27 * 200]).unwrap().elapsed
}

#[test]
fn lists() {
    CALLS.lists();
}

#[test]
fn refusals() {
    CALLS.refusals();
}

#[test]
fn any_lists() {
    CALLS.any_lists(150);
}

#[test]
fn each_hearing() {
    FAST.each_hearing();
}

#[test]
fn limits() {
    FAST.limits();
}
