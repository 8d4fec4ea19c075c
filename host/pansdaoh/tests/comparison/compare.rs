//! Calls made of both sides, with lent buffers that show what was touched.

use pansdaoh::calls::{self, Answer, Found};
use reference::generate::Random;
use reference::yards::Settings;
use reference::Refusal;

/// Numbers at and far beyond the bounds of settings and line counts.
pub const NUMBERS: [u64; 15] =
    [0, 1, 2, 3, 4, 5, 8, 9, 255, 40_000, 40_001, 1 << 32, (1 << 32) + 2, 1 << 63, u64::MAX];

/// Settings with numbers at and far beyond the bounds of each.
pub fn each_settings(random: &mut Random, mut check: impl FnMut(Settings)) {
    for (n, p) in NUMBERS.iter().flat_map(|&n| NUMBERS.map(|p| (n, p))) {
        for layout in [0, 1, 2, 3, (1 << 32) + 1, u64::MAX] {
            check([n, p, layout, random.pick(&NUMBERS)]);
        }
    }
    for copies in (0..40).chain(NUMBERS) {
        for (n, p) in [(2, 1), (2, 8), (3, 2), (8, 1)] {
            check([n, p, 1, copies]);
            check([n, p, 2, copies]);
        }
    }
}

/// Bytes before and behind a lent buffer.
const AROUND: usize = 41;

/// A buffer to lend, with other bytes before and behind it.
pub struct Lent {
    bytes: Vec<u8>,
}

/// What byte i held before the call.
fn former(i: usize) -> u8 {
    (7 + 31 * i + i / 256) as u8
}

impl Lent {
    pub fn new(room: usize) -> Lent {
        Lent { bytes: (0..AROUND + room + AROUND).map(former).collect() }
    }

    /// A buffer that holds these bytes.
    pub fn of(bytes: &[u8]) -> Lent {
        let mut lent = Lent::new(bytes.len());
        lent.buffer().copy_from_slice(bytes);
        lent
    }

    pub fn buffer(&mut self) -> &mut [u8] {
        let end = self.bytes.len() - AROUND;
        &mut self.bytes[AROUND..end]
    }

    /// The buffer starts with these bytes, and all others are as they were.
    pub fn holds(&self, written: &[u8]) -> bool {
        let (before, rest) = self.bytes.split_at(AROUND);
        let (output, behind) = rest.split_at(written.len());
        let start = AROUND + written.len();
        output == written
            && before.iter().enumerate().all(|(i, &byte)| byte == former(i))
            && behind.iter().enumerate().all(|(i, &byte)| byte == former(start + i))
    }
}

/// Builds on both sides into a buffer of `room` bytes.
pub fn build(list: &[u8], [n, p, layout, copies]: Settings, room: usize) -> Answer {
    let mut expected = vec![0; room];
    let result = reference::build(list, n, p, layout, copies, &mut expected);
    expected.truncate(240 * result.unwrap_or(0) as usize);
    let given = list.to_vec();
    let mut lent = Lent::new(room);
    let answer = calls::build(&given, n, p, layout, copies, lent.buffer());
    assert_eq!(answer, answer_of(result), "n {n}, p {p}, layout {layout}, copies {copies}");
    assert!(lent.holds(&expected), "n {n}, p {p}, layout {layout}, copies {copies}");
    assert!(given == list, "the list was touched");
    answer
}

/// Reads back on both sides into a buffer of `room` bytes.
pub fn read_back(image: &[u8], [n, p, layout, copies]: Settings, room: usize) -> Answer {
    let mut expected = vec![0; room];
    let result = reference::read_back(image, n, p, layout, copies, &mut expected);
    expected.truncate(27 * result.unwrap_or(0) as usize);
    let given = image.to_vec();
    let mut lent = Lent::new(room);
    let answer = calls::read_back(&given, n, p, layout, copies, lent.buffer());
    assert_eq!(answer, answer_of(result), "n {n}, p {p}, layout {layout}, copies {copies}");
    assert!(lent.holds(&expected), "n {n}, p {p}, layout {layout}, copies {copies}");
    assert!(given == image, "the image was touched");
    answer
}

fn answer_of(result: Result<u64, Refusal>) -> Answer {
    match result {
        Ok(count) => Answer { number: 0, place: 0, count },
        Err(Refusal { number, place }) => Answer { number, place, count: 0 },
    }
}

/// Looks up on both sides into a buffer of `room` bytes.
pub fn lookup(image: &[u8], tag: u64, tune_in: u64, room: usize) -> Found {
    let given = image.to_vec();
    let found = lookup_lent(&given, tag, tune_in, room);
    assert!(given == image, "the image was touched");
    found
}

/// The same, without a look at the image afterwards.
pub fn lookup_lent(image: &[u8], tag: u64, tune_in: u64, room: usize) -> Found {
    let mut expected = vec![0; room];
    let result = reference::lookup(image, tag, tune_in, &mut expected);
    let expected_found = match result {
        Ok(looked) => Found {
            number: 0,
            place: 0,
            end: if looked.found { 1 } else { 2 },
            heard: looked.heard,
            elapsed: looked.elapsed,
            lines: looked.lines,
        },
        Err(Refusal { number, place }) => {
            Found { number, place, end: 0, heard: 0, elapsed: 0, lines: 0 }
        }
    };
    expected.truncate(27 * expected_found.lines as usize);
    let mut lent = Lent::new(room);
    let found = calls::lookup(image, tag, tune_in, lent.buffer());
    assert_eq!(found, expected_found, "tag {tag}, tune-in {tune_in}");
    assert!(lent.holds(&expected), "tag {tag}, tune-in {tune_in}");
    found
}
