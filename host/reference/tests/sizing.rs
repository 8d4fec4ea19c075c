//! The fast sizes against the slow ones.

use reference::generate::Random;
use reference::yards::{legal_copies, levels, Settings};
use reference::{literal, size, Refusal};

fn compare(lines: u64, [n, p, layout, copies]: Settings, c: u64) -> u64 {
    let fast = size(lines, n, p, layout, copies, c);
    let slow = literal::size(lines, n, p, layout, copies, c);
    assert_eq!(fast, slow, "{lines} lines, n {n}, p {p}, layout {layout}, copies {copies}, C {c}");
    fast.map_or_else(|refusal| refusal.number, |_| 0)
}

#[test]
fn few_lines_and_all_settings() {
    for lines in 0..=40 {
        for (n, p) in (1..=9).flat_map(|n| (0..=9).map(move |p| (n, p))) {
            for (layout, copies) in (0..=3).flat_map(|layout| (0..=6).map(move |r| (layout, r))) {
                compare(lines, [n, p, layout, copies], copies);
            }
        }
    }
}

/// C below, at and above D.
#[test]
fn more_lines() {
    let random = &mut Random::new(1);
    for _ in 0..150 {
        let lines = random.below(700);
        let (n, p) = (2 + random.below(7), 1 + random.below(8));
        let (_, data) = levels(lines, n, p);
        for settings in legal_copies(lines, n, p) {
            for c in [0, 1, data / 2, data, data + 1, u64::MAX] {
                let number = compare(lines, settings, c);
                assert!(number == 0 || number == 6 && settings[2] == 2, "{settings:?}");
            }
        }
    }
}

#[test]
fn most_lines() {
    for settings in [[2, 1, 1, 4], [8, 1, 1, 4], [3, 2, 1, 3], [2, 1, 2, 1], [8, 8, 2, 128]] {
        assert_eq!(compare(40_000, settings, 7), 0);
        assert_eq!(compare(40_001, settings, 7), 2);
    }
    assert_eq!(compare(40_000, [2, 1, 2, 2], 7), 6);
    assert_eq!(compare(40_000, [2, 1, 2, 40_001], 7), 5);
    assert_eq!(compare(40_000, [2, 1, 1, u64::MAX], 7), 5);
}

/// In the order of building.
#[test]
fn order_of_refusals() {
    let refused = |lines, n, copies| size(lines, n, 1, 2, copies, 0);
    let by = |number| Err(Refusal { number, place: 0 });
    assert_eq!(refused(u64::MAX, 9, 0), by(1));
    assert_eq!(refused(u64::MAX, 2, 0), by(2));
    assert_eq!(refused(40_000, 2, 40_001), by(5));
    assert_eq!(refused(40_000, 2, 40_000), by(6));
}
