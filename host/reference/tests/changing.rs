//! Lists whose lines come and go (C-14), the fast calls against the slow ones.

mod common;

use common::{change_into, Changing};
use reference::skips::{Calls, Given, Made};
use reference::yards::Settings;
use reference::{arrive, literal, take_out, Refusal};

/// The fast calls, held against the slow ones.
const CALLS: Calls = Calls {
    arrive: |list, given| compare(arrive, literal::arrive, list, given),
    take_out: |list, given| compare(take_out, literal::take_out, list, given),
};

type Slow = fn(&[u8], u64, &[u8], Settings, usize) -> Result<literal::Change, Refusal>;

fn compare(fast: Changing, slow: Slow, list: &mut [u8], given: Given) -> Made {
    let expected = slow(list, given.lines, given.line, given.settings, given.room);
    let made = change_into(fast, list, given);
    let all = made.clone().map(|(changed, image)| (changed, list.to_vec(), image));
    assert!(all == expected, "{given:?}, {list:?}");
    made
}

#[test]
fn any_changes() {
    CALLS.any_changes();
}

#[test]
fn sequences() {
    CALLS.sequences();
}

#[test]
fn laws() {
    CALLS.laws();
}

#[test]
fn bounds() {
    CALLS.bounds();
}

#[test]
fn limits() {
    let arrive = |list: &mut [u8], given: Given| change_into(arrive, list, given);
    let take_out = |list: &mut [u8], given: Given| change_into(take_out, list, given);
    Calls { arrive, take_out }.limits();
}
