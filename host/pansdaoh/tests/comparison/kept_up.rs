//! A list whose lines come and go while it is on air: what the other calls say of it,
//! and hearings over its cycles with buckets lost.

use reference::air::{any_settings, losses, Sending};
use reference::generate::{list_from, Random};
use reference::skips::Given;
use reference::yards::{image_of, short_list, tags};
use reference::Refusal;

use crate::changing::CALLS;
use crate::compare::read_back;
use crate::listening::Both;
use crate::{averaging, sizing};

/// Room for the image of a short list.
const ROOM: usize = 240 * 400;

#[test]
fn hearings() {
    losses::hear_cycles(cycles, Both::new);
}

/// The cycles of a list behind three changes.
fn cycles(random: &mut Random) -> [Sending; 3] {
    let list = short_list(random);
    let mut lines = (list.len() / 27) as u64;
    // Places for three lines more.
    let mut buffer = [&list[..], &[b' '; 3 * 27]].concat();
    std::array::from_fn(|_| {
        let sent = changed(random, &mut buffer, lines);
        lines = sent.lines();
        sent
    })
}

/// A line of the list is taken out, or any arrives.
fn changed(random: &mut Random, buffer: &mut [u8], lines: u64) -> Sending {
    let (call, line, after) = if lines > 0 && random.below(2) == 0 {
        let at = 27 * random.below(lines) as usize;
        (CALLS.take_out, buffer[at..at + 27].to_vec(), lines - 1)
    } else {
        (CALLS.arrive, list_from(random, 1, 0, 12), lines + 1)
    };
    let settings = any_settings(random, after);
    let given = Given { lines, line: &line, settings, room: ROOM };
    let (changed, image) = call(buffer, given).unwrap();
    let list = &buffer[..27 * after as usize];
    assert!(image == image_of(list, settings), "{given:?}");
    let size = sizing::compare(after, settings, 0);
    assert_eq!([size.d, size.k, size.n], [changed.d, changed.k, changed.n], "{given:?}");
    assert_eq!(read_back(&image, settings, list.len()).count, after, "{given:?}");
    let mut tags = tags(list);
    tags.dedup();
    match averaging::compare(list, settings) {
        Ok(mean) => assert_eq!(mean.divisor, changed.n * tags.len() as u64, "{given:?}"),
        Err(Refusal { number, .. }) => assert_eq!((number, after), (17, 0), "{given:?}"),
    }
    Sending::new(list.to_vec(), settings)
}
