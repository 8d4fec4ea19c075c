//! The figures of a cycle before there is a list.

use pansdaoh::{calls, Refusal, Settings, Size};
use reference::generate::{list, Random};
use reference::yards::{self, image_of, legal_settings, levels, tags, tags_around};

use crate::compare::NUMBERS;
use crate::full_size::settings_with;

/// Sizes on both sides.
pub fn compare(lines: u64, [n, p, layout, copies]: yards::Settings, c: u64) -> calls::Size {
    let (number, place, [k, d, buckets, bytes, heard]) =
        match reference::size(lines, n, p, layout, copies, c) {
            Ok(size) => (0, 0, [size.k, size.d, size.n, size.bytes, size.heard]),
            Err(refusal) => (refusal.number, refusal.place, [0; 5]),
        };
    let size = calls::size(lines, n, p, layout, copies, c);
    assert_eq!(
        size,
        calls::Size { number, place, k, d, n: buckets, bytes, heard },
        "{lines} lines, n {n}, p {p}, layout {layout}, copies {copies}, C {c}"
    );
    size
}

fn settings([n, p, layout, copies]: yards::Settings) -> Settings {
    Settings { n, p, layout, copies }
}

/// Copies in and around their range, C below, at and above D.
#[test]
fn few_lines_and_all_settings() {
    for lines in 0..=300 {
        for (n, p) in (2..=8).flat_map(|n| (1..=8).map(move |p| (n, p))) {
            let (k, data) = levels(lines, n, p);
            for copies in
                (0..=6).chain([k - 1, k, data / 2, data.saturating_sub(1), data, data + 1])
            {
                for c in [0, 1, 2, data.saturating_sub(1), data, data + 1, u64::MAX] {
                    compare(lines, [n, p, 1, copies], c);
                    compare(lines, [n, p, 2, copies], c);
                }
            }
        }
    }
}

#[test]
fn any_numbers() {
    let random = &mut Random::new(1);
    for lines in NUMBERS {
        for (n, p) in NUMBERS.iter().flat_map(|&n| NUMBERS.map(|p| (n, p))) {
            for layout in [0, 1, 2, 3, (1 << 32) + 1, u64::MAX] {
                compare(lines, [n, p, layout, random.pick(&NUMBERS)], random.pick(&NUMBERS));
            }
        }
        for (n, p) in [(2, 1), (2, 8), (3, 2), (8, 1)] {
            for (copies, c) in NUMBERS.iter().flat_map(|&copies| NUMBERS.map(|c| (copies, c))) {
                compare(lines, [n, p, 1, copies], c);
                compare(lines, [n, p, 2, copies], c);
            }
        }
    }
}

/// Every number of data buckets. A cycle of layout 1 is never too long.
#[test]
fn all_line_counts() {
    for (lines, n) in (0..=40_000).flat_map(|lines| (2..=8).map(move |n| (lines, n))) {
        let (k, _) = levels(lines, n, 1);
        for copies in 0..=5 {
            let expected = if copies <= 4.min(k - 1) { 0 } else { 5 };
            assert_eq!(compare(lines, [n, 1, 1, copies], 3).number, expected);
        }
    }
}

/// The most lines, one more, and the most parts that fit, one more.
#[test]
fn limits() {
    for (n, p) in (2..=8).flat_map(|n| (1..=8).map(move |p| (n, p))) {
        for lines in 39_990..=40_010 {
            for copies in 0..=4 {
                let number = compare(lines, [n, p, 1, copies], lines).number;
                assert_eq!(number == 2, lines > 40_000);
            }
        }
        let once = compare(40_000, [n, p, 2, 1], 0);
        let most = (99_999 - once.d) / (once.n - once.d);
        assert!(most < once.d);
        assert_eq!(compare(40_000, [n, p, 2, most], 0).number, 0);
        assert_eq!(compare(40_000, [n, p, 2, most + 1], 0).number, 6);
    }
    for (buckets, number) in [(99_999, 0), (100_000, 6)] {
        let (lines, settings) = settings_with(buckets);
        assert_eq!(compare(lines, settings, 1).number, number);
    }
}

/// In the order of building.
#[test]
fn order_of_refusals() {
    let refused = |lines, n, copies| compare(lines, [n, 1, 2, copies], 0).number;
    assert_eq!(refused(u64::MAX, 9, 0), 1);
    assert_eq!(refused(u64::MAX, 2, 0), 2);
    assert_eq!(refused(40_000, 2, 40_001), 5);
    assert_eq!(refused(40_000, 2, 40_000), 6);
}

/// The size and what building a list of so many lines gives: N in room for the
/// image's bytes, 7 in one byte less, or the same refusal.
fn agrees(list: &[u8], settings: Settings) -> u64 {
    let size = match pansdaoh::size((list.len() / 27) as u64, settings, 0) {
        Ok(size) => size,
        Err(refusal) => {
            assert_eq!(pansdaoh::build(list, settings, &mut []), Err(refusal), "{settings:?}");
            return refusal.number;
        }
    };
    let mut image = vec![0; size.bytes as usize];
    let short = image.len() - 1;
    let by_7 = Err(Refusal { number: 7, place: 0 });
    assert_eq!(pansdaoh::build(list, settings, &mut image[..short]), by_7, "{settings:?}");
    assert_eq!(pansdaoh::build(list, settings, &mut image), Ok(size.n), "{settings:?}");
    let data = image.chunks(240).filter(|bucket| bucket[24] == b'D');
    assert_eq!(data.count() as u64, size.d, "{settings:?}");
    0
}

#[test]
fn agrees_with_building() {
    let random = &mut Random::new(2);
    let mut refused = [0; 7];
    for _ in 0..4_000 {
        let lines = random.pick(&[20, 60, 400]);
        let lines = random.below(lines);
        let list = list(random, lines, 2);
        let (n, p, layout) = (1 + random.below(9), random.below(10), random.below(4));
        let copies = random.pick(&[0, 1, 2, 3, 4, 5, lines / 2, lines, lines + 1, u64::MAX]);
        let given = Settings { n, p, layout, copies };
        refused[agrees(&list, given) as usize] += 1;
        let legal = settings(legal_settings(random, lines));
        refused[agrees(&list, legal) as usize] += 1;
    }
    for number in [0, 1, 5] {
        assert!(refused[number] > 100, "{refused:?}");
    }
}

#[test]
fn agrees_with_building_at_full_size() {
    let list = list(&mut Random::new(3), 40_001, 3);
    let mut refused = [0; 7];
    for copies in [0, 1, 4, 5, 10, 40_000, 40_001] {
        for [n, p, layout] in [[2, 1, 1], [2, 1, 2], [8, 8, 1], [8, 8, 2], [8, 1, 2], [9, 1, 1]] {
            let settings = Settings { n, p, layout, copies };
            refused[agrees(&list, settings) as usize] += 1;
            refused[agrees(&list[..27 * 40_000], settings) as usize] += 1;
        }
    }
    for number in [0, 1, 2, 5, 6] {
        assert!(refused[number] > 0, "{refused:?}");
    }
}

/// No tag is heard in more buckets than its C says, from any tune-in; in some
/// cycle it is as many.
#[test]
fn limit_on_heard() {
    let random = &mut Random::new(4);
    let mut reached = 0;
    for _ in 0..60 {
        let lines = random.below(40);
        let spread = random.below(3);
        let list = list(random, lines, spread);
        let given = legal_settings(random, lines);
        let image = image_of(&list, given);
        for tag in tags_around(&list) {
            let runs = tags(&list);
            let c = runs.chunks(given[1] as usize).filter(|run| run.contains(&tag)).count();
            let most = pansdaoh::size(lines, settings(given), c as u64).unwrap().heard;
            let heard = (0..(image.len() / 240) as u64)
                .map(|tune_in| pansdaoh::lookup(&image, tag, tune_in, &mut [0; 27 * 40]))
                .map(|looked| looked.unwrap().heard);
            let heard = heard.max().unwrap();
            assert!(heard <= most, "tag {tag}, {given:?}");
            reached += (heard == most) as u64;
        }
    }
    assert!(reached > 100, "{reached}");
}

/// As Rust sees it.
#[test]
fn results() {
    let size = |copies, c| pansdaoh::size(5, settings([2, 1, 1, copies]), c);
    let figures = Size { k: 3, d: 5, n: 12, bytes: 2_880, heard: 7 };
    assert_eq!(size(1, 2), Ok(figures));
    assert_eq!(size(1, 0), Ok(Size { heard: 6, ..figures }));
    assert_eq!(size(1, 6), Ok(Size { heard: 10, ..figures }));
    assert_eq!(size(3, 2), Err(Refusal { number: 5, place: 0 }));
}
