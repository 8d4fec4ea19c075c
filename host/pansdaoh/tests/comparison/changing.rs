//! Lists whose lines come and go (C-14).

use pansdaoh::calls;
use pansdaoh::{Changed, Settings};
use reference::generate::{list, list_of, Random};
use reference::skips::{Calls, Given, Made};
use reference::{yards, Refusal};

use crate::compare::{build, each_settings, Lent};

/// The library's calls, held against those of the reference.
pub const CALLS: Calls = Calls {
    arrive: |list, given| compare(calls::arrive, reference::arrive, list, given),
    take_out: |list, given| compare(calls::take_out, reference::take_out, list, given),
};

/// A change, as either side answers it.
type Call<Answer> = fn(&mut [u8], u64, &[u8], yards::Settings, &mut [u8]) -> Answer;

type Expected = Result<reference::Changed, Refusal>;

/// A change on both sides, and the changed list built afresh.
fn compare(
    library: Call<calls::Change>,
    reference: Call<Expected>,
    list: &mut [u8],
    given: Given,
) -> Made {
    let Given { lines, line, settings, room } = given;
    let (mut held, mut lent, own_line) = (Lent::of(list), Lent::new(room), line.to_vec());
    let change = library(held.buffer(), lines, &own_line, settings, lent.buffer());
    let mut image = vec![0; room];
    let result = reference(list, lines, line, settings, &mut image);
    image.truncate(240 * change.n as usize);
    assert_eq!(change, change_of(result), "{given:?}, {list:?}");
    assert!(held.holds(list), "{given:?}, {list:?}");
    assert!(lent.holds(&image), "{given:?}, {list:?}");
    assert!(own_line == line, "the line was touched");
    let changed = result?;
    let built = build(&list[..27 * changed.lines as usize], settings, room);
    assert_eq!(built.count, changed.n);
    Ok((changed, image))
}

fn change_of(result: Expected) -> calls::Change {
    let (number, place, [lines, d, k, n]) = match result {
        Ok(changed) => (0, 0, [changed.lines, changed.d, changed.k, changed.n]),
        Err(Refusal { number, place }) => (number, place, [0; 4]),
    };
    calls::Change { number, place, lines, d, k, n }
}

#[test]
fn any_changes() {
    CALLS.any_changes();
}

#[test]
fn sequences() {
    CALLS.sequences();
}

#[test]
fn laws() {
    CALLS.laws();
}

#[test]
fn bounds() {
    CALLS.bounds();
}

#[test]
fn limits() {
    CALLS.limits();
}

#[test]
fn any_settings() {
    let random = &mut Random::new(1);
    for call in [CALLS.arrive, CALLS.take_out] {
        let mut answers = [0; 8];
        for lines in [1, 5, 9] {
            let list = list(random, lines, 1);
            let line = &list[..27];
            each_settings(random, |settings| {
                let mut buffer = [&list, line].concat();
                let made = call(&mut buffer, Given { lines, line, settings, room: 240 * 150 });
                answers[made.map_or_else(|refusal| refusal.number as usize, |_| 0)] += 1;
            });
        }
        for number in [0, 1, 5] {
            assert!(answers[number] > 100, "{answers:?}");
        }
    }
}

/// As Rust sees it.
#[test]
fn results() {
    let settings = Settings { n: 2, p: 1, layout: 1, copies: 1 };
    let image = &mut [0; 240 * 20];
    let list = &mut list_of(&[3, 5, 8, 9]);
    let five = &list_of(&[5]);
    let by = |number, place| Err(pansdaoh::Refusal { number, place });
    assert_eq!(pansdaoh::arrive(list, 4, five, settings, image), by(16, 0));
    let taken = pansdaoh::take_out(list, 4, five, settings, image);
    assert_eq!(taken, Ok(Changed { lines: 3, d: 3, k: 2, n: 7 }));
    assert_eq!(list[..], [&list_of(&[3, 8, 9])[..], &[b' '; 27]].concat());
    assert_eq!(pansdaoh::take_out(list, 3, five, settings, image), by(15, 0));
    assert_eq!(pansdaoh::take_out(list, 3, &[b' '; 27], settings, image), by(3, 3));
    let arrived = pansdaoh::arrive(list, 3, five, settings, image);
    assert_eq!(arrived, Ok(Changed { lines: 4, d: 4, k: 2, n: 8 }));
    assert_eq!(list[..], list_of(&[3, 5, 8, 9]));
}
