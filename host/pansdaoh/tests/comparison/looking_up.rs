use reference::generate::{list, list_from, Random};
use reference::yards::{damaged_cycle, image_of, legal_copies, legal_settings, tags_around};

use crate::compare::{lookup, lookup_lent};

/// Every tag around and every tune-in.
#[test]
fn small_lists() {
    let random = &mut Random::new(1);
    for lines in 0..=13 {
        for n in [2, 3, 4, 8] {
            for p in [1, 2, 3, 8] {
                for settings in legal_copies(lines, n, p) {
                    let spread = random.pick(&[0, 1, 1, 2]);
                    let start = random.pick(&[0, 0, 7, 4_294_967_290]);
                    let list = list_from(random, lines, start, spread);
                    let image = image_of(&list, settings);
                    for tag in tags_around(&list) {
                        for tune_in in 0..(image.len() / 240) as u64 {
                            let found = lookup_lent(&image, tag, tune_in, list.len());
                            assert_eq!(found.number, 0);
                        }
                    }
                }
            }
        }
    }
}

/// Room for the lines, one byte more, one byte less, none.
#[test]
fn room() {
    let random = &mut Random::new(2);
    for _ in 0..300 {
        let lines = 1 + random.below(20);
        let spread = random.below(3);
        let list = list(random, lines, spread);
        let settings = legal_settings(random, lines);
        let image = image_of(&list, settings);
        let tune_in = random.below((image.len() / 240) as u64);
        for tag in tags_around(&list) {
            let found = lookup(&image, tag, tune_in, list.len());
            let needed = 27 * found.lines as usize;
            assert_eq!(lookup(&image, tag, tune_in, needed), found);
            assert_eq!(lookup(&image, tag, tune_in, needed + 1), found);
            if needed > 0 {
                assert_eq!(lookup(&image, tag, tune_in, needed - 1).number, 7);
                assert_eq!(lookup(&image, tag, tune_in, 0).number, 7);
            }
        }
    }
}

#[test]
fn damaged_images() {
    let random = &mut Random::new(3);
    let mut refused = [0; 15];
    for _ in 0..20_000 {
        let mut image = damaged_cycle(random, 16, 4);
        if random.below(40) == 0 {
            image.truncate(random.below(image.len() as u64 + 1) as usize);
        }
        let buckets = (image.len() / 240) as u64;
        for _ in 0..4 {
            let tag = random.below(20);
            let mut tune_in = random.below(10 * buckets + 1) % (buckets + 1);
            if random.below(50) == 0 {
                tune_in = random.pick(&[buckets, buckets + 1, 1 << 32, 1 << 63, u64::MAX]);
            }
            let room = 27 * random.below(8) as usize;
            refused[lookup(&image, tag, tune_in, room).number as usize] += 1;
        }
    }
    for number in [0, 7, 8, 9, 10, 11, 12] {
        assert!(refused[number] > 100, "{refused:?}");
    }
}

/// A data bucket whose lines match, before one whose lines do not.
#[test]
fn absent_after_matching_lines() {
    let tail = |first: String| format!("{first:<239}\n");
    let line = |tag: u64| format!("{tag:>10}{:>6}{:>4}{:>6}", 1, 2, 3);
    let head = |place: u64, follow_on: u64, kind: &str| {
        format!("{place:>6}{:>6}{:>6}{follow_on:>6}{kind}", 3 - place, 3 - place)
    };
    let entry = format!("{:<93}{:>10}{:>6}", head(0, 0, "I 0 1"), 5, 1);
    let image =
        [tail(entry), tail(head(1, 1, "D 0 1") + &line(5)), tail(head(2, 0, "D 0 1") + &line(6))]
            .concat();
    let found = lookup(image.as_bytes(), 5, 0, 100);
    assert_eq!((found.number, found.end, found.heard, found.lines), (0, 2, 4, 0));
}
