//! Legal settings of a list, its image and its tags, for tests.

use crate::cycle::Cycle;
use crate::generate::{damaged_image, damaged_list, list, list_from, with_zeros, Random};

pub use crate::Settings;

/// Lines and settings of cycles small enough to alter each byte of them.
pub const SMALL: [(u64, Settings); 8] = [
    (0, [2, 1, 1, 0]),
    (0, [5, 3, 2, 1]),
    (1, [2, 1, 1, 0]),
    (5, [2, 1, 1, 1]),
    (5, [2, 2, 2, 2]),
    (9, [2, 1, 1, 2]),
    (23, [3, 3, 1, 1]),
    (17, [8, 8, 2, 3]),
];

/// The index levels k and the data buckets D of so many lines.
pub fn levels(lines: u64, n: u64, p: u64) -> (u64, u64) {
    let data = lines.div_ceil(p);
    let k = (1..).find(|&k| n.pow(k) >= data).unwrap();
    (k as u64, data)
}

/// All legal settings of n and p for so many lines; of the (1,m) cycles those
/// with few parts, with parts of one data bucket, and some between.
pub fn legal_copies(lines: u64, n: u64, p: u64) -> Vec<Settings> {
    let (k, data) = levels(lines, n, p);
    let mut settings: Vec<Settings> = (0..=4.min(k - 1)).map(|r| [n, p, 1, r]).collect();
    let mut parts = vec![1, 2, 3, 5, data / 2, data.saturating_sub(1), data];
    parts.retain(|&m| 1 <= m && m <= data.max(1));
    parts.sort();
    parts.dedup();
    settings.extend(parts.iter().map(|&m| [n, p, 2, m]));
    settings
}

/// One of the legal settings for so many lines.
pub fn legal_settings(random: &mut Random, lines: u64) -> Settings {
    let (n, p) = (2 + random.below(7), 1 + random.below(8));
    random.pick(&legal_copies(lines, n, p))
}

/// The image of a valid list.
pub fn image_of(list: &[u8], [n, p, layout, copies]: Settings) -> Vec<u8> {
    let cycle = Cycle::new((list.len() / 27) as u64, n, p, layout, copies).unwrap();
    let mut image = vec![0; 240 * cycle.buckets() as usize];
    crate::build(list, n, p, layout, copies, &mut image).unwrap();
    image
}

/// A short list, with leading zeros or without.
pub fn short_list(random: &mut Random) -> Vec<u8> {
    let lines = random.below(12);
    let start = random.pick(&[0, 0, 4_294_967_290]);
    let spread = random.below(3);
    let list = list_from(random, lines, start, spread);
    with_zeros(random, &list)
}

/// A short list, damaged, with settings and room that may be out of range or too
/// little.
pub fn damaged_building(random: &mut Random) -> (Vec<u8>, Settings, usize) {
    let good = short_list(random);
    let list = damaged_list(random, &good);
    let settings = [2 + random.below(8), 1 + random.below(9), random.below(4), random.below(4)];
    (list, settings, 240 * random.below(20) as usize)
}

/// The image of a list of fewer lines than `lines`, damaged fewer times than
/// `times`; none of its buckets may be left.
pub fn damaged_cycle(random: &mut Random, lines: u64, times: u64) -> Vec<u8> {
    let lines = random.below(lines);
    let spread = random.below(3);
    let list = list(random, lines, spread);
    let settings = legal_settings(random, lines);
    let mut image = image_of(&list, settings);
    for _ in 0..random.below(times) {
        if !image.is_empty() {
            image = damaged_image(random, &image);
        }
    }
    image
}

/// Every tag of the list, those next to it, 0, and tags above all.
pub fn tags_around(list: &[u8]) -> Vec<u64> {
    let mut around = vec![0, 4_294_967_295, 4_294_967_296, u64::MAX];
    for tag in tags(list) {
        around.extend([tag.saturating_sub(1), tag, tag + 1]);
    }
    around.sort();
    around.dedup();
    around
}

/// The tags of a list.
pub fn tags(list: &[u8]) -> Vec<u64> {
    let tag = |line: &[u8]| std::str::from_utf8(&line[..10]).unwrap().trim().parse().unwrap();
    list.chunks(27).map(tag).collect()
}
