//! The longest lists and cycles.

use reference::generate::{alter, damaged_image, list, list_of, Random};
use reference::yards::{image_of, tags, Settings};

use crate::compare::{build, lookup_lent, read_back};

const IMAGE_ROOM: usize = 240 * 99_999;
const LIST_ROOM: usize = 27 * 40_000;

const SETTINGS: [Settings; 8] = [
    [2, 1, 1, 0],
    [2, 1, 1, 4],
    [8, 1, 1, 4],
    [3, 2, 1, 3],
    [8, 8, 1, 1],
    [2, 1, 2, 1],
    [8, 8, 2, 128],
    [5, 7, 2, 40],
];

/// The most lines with which some (1,m) cycle has so many buckets.
pub fn settings_with(buckets: u64) -> (u64, Settings) {
    for lines in (1..=40_000).rev() {
        for (n, p) in (2..=8).flat_map(|n| (1..=8).map(move |p| (n, p))) {
            let once = reference::size(lines, n, p, 2, 1, 0).unwrap();
            let (data, tree) = (once.d, once.n - once.d);
            let parts = (buckets - data) / tree;
            if data + parts * tree == buckets && 1 <= parts && parts <= data {
                return (lines, [n, p, 2, parts]);
            }
        }
    }
    panic!("no such cycle");
}

/// Building, reading back, lookups from many tune-ins; then damage.
fn check(random: &mut Random, list: &[u8], settings: Settings) {
    let lines = (list.len() / 27) as u64;
    let image = image_of(list, settings);
    assert_eq!(build(list, settings, image.len()).number, 0);
    assert_eq!(build(list, settings, image.len() - 1).number, 7);
    assert_eq!(read_back(&image, settings, list.len()).count, lines);
    assert_eq!(read_back(&image, settings, list.len() - 1).number, 7);
    let tags = tags(list);
    let buckets = (image.len() / 240) as u64;
    for _ in 0..500 {
        let tag = random.pick(&tags) + random.below(2);
        let any = random.below(buckets);
        let tune_in = random.pick(&[0, buckets - 1, any, any]);
        assert_eq!(lookup_lent(&image, tag, tune_in, 27 * 60).number, 0);
    }
    let mut altered = image.clone();
    alter(random, &mut altered);
    let damaged = damaged_image(random, &image);
    for image in [altered, damaged] {
        read_back(&image, settings, LIST_ROOM);
        let buckets = (image.len() / 240) as u64;
        for _ in 0..100 {
            lookup_lent(&image, random.pick(&tags), random.below(buckets), 27 * 60);
        }
    }
}

#[test]
fn longest_list() {
    let random = &mut Random::new(1);
    let list = list(random, 40_000, 3);
    for settings in SETTINGS {
        check(random, &list, settings);
    }
}

#[test]
fn longest_cycle() {
    let random = &mut Random::new(2);
    let (lines, settings) = settings_with(99_999);
    let longest = list(random, lines, 100_000);
    assert_eq!(build(&longest, settings, IMAGE_ROOM).count, 99_999);
    check(random, &longest, settings);
    let (lines, settings) = settings_with(100_000);
    let longer = list(random, lines, 100_000);
    assert_eq!(build(&longer, settings, IMAGE_ROOM + 240).number, 6);
}

#[test]
fn limits_of_a_list() {
    let list = list(&mut Random::new(3), 40_001, 3);
    let longest = &list[..LIST_ROOM];
    for settings in [[8, 8, 1, 0], [2, 1, 2, 40_000]] {
        assert_eq!(build(&list, settings, 0).number, 2);
        assert_eq!(build(&list[..LIST_ROOM + 1], settings, 0).number, 2);
        assert_eq!(build(&list[..LIST_ROOM - 1], settings, 0).number, 2);
    }
    assert_eq!(build(longest, [2, 1, 2, 40_000], 0).number, 6);
    assert_eq!(build(longest, [2, 1, 2, 40_001], 0).number, 5);
    assert_eq!(build(longest, [8, 8, 1, 0], 0).number, 7);
    // Damage in the last lines.
    let mut damaged = longest.to_vec();
    damaged[LIST_ROOM - 27..].copy_from_slice(&list_of(&[0]));
    let answer = build(&damaged, [8, 8, 1, 9], 0);
    assert_eq!((answer.number, answer.place), (4, 39_999));
    damaged[LIST_ROOM - 1] = b' ';
    let answer = build(&damaged, [8, 8, 1, 9], 0);
    assert_eq!((answer.number, answer.place), (3, 39_999));
}

#[test]
fn limits_of_an_image() {
    let list = list(&mut Random::new(4), 40_000, 3);
    let mut image = image_of(&list, [2, 1, 1, 4]);
    let last = tags(&list)[39_999];
    image.resize(IMAGE_ROOM + 240, b' ');
    for (length, read, looked) in [
        (IMAGE_ROOM - 1, 11, 11),
        (IMAGE_ROOM, 13, 0),
        (IMAGE_ROOM + 1, 11, 11),
        (IMAGE_ROOM + 240, 11, 11),
    ] {
        let image = &image[..length];
        assert_eq!(read_back(image, [2, 1, 1, 4], LIST_ROOM).number, read);
        assert_eq!(lookup_lent(image, last, 0, LIST_ROOM).number, looked);
    }
    assert_eq!(lookup_lent(&image[..IMAGE_ROOM], 5, 99_999, LIST_ROOM).number, 12);
    assert_eq!(lookup_lent(&image[..IMAGE_ROOM], 5, 99_998, LIST_ROOM).number, 8);
}

/// All lines of one tag: the longest follow-on chain.
#[test]
fn one_tag() {
    let list = list_of(&vec![7; 40_000]);
    for settings in [[2, 1, 1, 4], [8, 8, 1, 2], [2, 1, 2, 1], [8, 1, 2, 10]] {
        let image = image_of(&list, settings);
        let last = (image.len() / 240) as u64 - 1;
        for tune_in in [0, 1, last / 2, last] {
            assert_eq!(lookup_lent(&image, 7, tune_in, LIST_ROOM).lines, 40_000);
            assert_eq!(lookup_lent(&image, 7, tune_in, LIST_ROOM - 1).number, 7);
            assert_eq!(lookup_lent(&image, 6, tune_in, 0).end, 2);
            assert_eq!(lookup_lent(&image, 8, tune_in, 0).end, 2);
        }
    }
}
