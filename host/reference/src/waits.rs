//! Lists whose mean wait is asked for, and what document 02, C-17, says of it; for
//! tests of reference and library.

use crate::generate::{
    damaged_list, each_alteration, full_of_zeros, list, list_from, list_of, with_zeros, Random,
};
use crate::line::LINE;
use crate::yards::{image_of, legal_copies, legal_settings, short_list, tags, Settings};
use crate::{blanked, size, Mean, Refusal};

pub struct Calls {
    /// The mean wait of a list.
    pub mean: fn(&[u8], Settings) -> Result<Mean, Refusal>,
    /// Elapsed of one lookup in an image: tag and tune-in.
    pub elapsed: fn(&[u8], u64, u64) -> u64,
}

/// N by sizing.
fn buckets(lines: usize, [n, p, layout, copies]: Settings) -> Result<u64, Refusal> {
    size(lines as u64, n, p, layout, copies, 0).map(|size| size.n)
}

/// The different tags of a list.
fn different_tags(list: &[u8]) -> Vec<u64> {
    let mut tags = tags(list);
    tags.dedup();
    tags
}

/// Each tag, in so many lines as stand with it.
fn list_with(counts: &[(u64, usize)]) -> Vec<u8> {
    let lines = counts.iter().flat_map(|&(tag, count)| vec![tag; count]);
    list_of(&lines.collect::<Vec<u64>>())
}

/// The divisor is N × T, the division is exact, and the sum is within its bounds.
fn check(mean: Mean, list: &[u8], settings: Settings) {
    let Mean { sum, divisor, quotient, remainder } = mean;
    let n = buckets(list.len() / LINE, settings).unwrap();
    assert_eq!(divisor, n * different_tags(list).len() as u64, "{settings:?}");
    assert_eq!(sum, quotient * divisor + remainder, "{settings:?}");
    assert!(remainder < divisor, "{settings:?}");
    // At least a tune-in bucket, an index bucket and a data bucket go by.
    assert!(3 * divisor <= sum && sum <= 2 * n * divisor, "{settings:?}");
}

impl Calls {
    /// The number by which a list is refused, or 0. Leading zeros change nothing.
    fn number(&self, list: &[u8], settings: Settings) -> u64 {
        let mean = (self.mean)(list, settings);
        let blanked = blanked(list);
        if blanked != list {
            assert_eq!(mean, (self.mean)(&blanked, settings), "{settings:?}, {list:?}");
        }
        match mean {
            Ok(mean) => {
                check(mean, &blanked, settings);
                0
            }
            Err(refusal) => refusal.number,
        }
    }

    fn accepted(&self, list: &[u8], settings: Settings) {
        assert_eq!(self.number(list, settings), 0, "{settings:?}");
    }

    /// Short lists.
    pub fn lists(&self) {
        self.all_settings();
        self.shapes();
    }

    /// Lists and settings that are refused.
    pub fn refusals(&self) {
        self.order();
        self.single_bytes();
        self.damaged();
    }

    /// Few lines, with copies in and around their range.
    fn all_settings(&self) {
        let random = &mut Random::new(1);
        for lines in 0..=9 {
            for (n, p) in (2..=8).flat_map(|n| (1..=8).map(move |p| (n, p))) {
                let spread = random.pick(&[0, 1, 1, 2, 100_000_000]);
                let list = list(random, lines, spread);
                for copies in 0..=lines + 1 {
                    for settings in [[n, p, 1, copies], [n, p, 2, copies]] {
                        let number = match buckets(lines as usize, settings) {
                            Ok(_) if lines == 0 => 17,
                            Ok(_) => 0,
                            Err(refusal) => refusal.number,
                        };
                        assert_eq!(self.number(&list, settings), number, "{settings:?}");
                    }
                }
            }
        }
    }

    /// So many lists of some length, with any tags, with leading zeros and without.
    pub fn any_lists(&self, times: u64) {
        let random = &mut Random::new(2);
        for _ in 0..times {
            let lines = 1 + random.below(40);
            let start = random.pick(&[0, 0, 4_294_967_290]);
            let spread = random.pick(&[0, 1, 1, 2, 100, 100_000_000]);
            let list = list_from(random, lines, start, spread);
            let settings = legal_settings(random, lines);
            self.accepted(&with_zeros(random, &list), settings);
        }
    }

    /// One tag in all lines, each tag in one line, and a tag in many lines in front
    /// of such, behind them and between.
    fn shapes(&self) {
        let single = |from: u64| (from..from + 6).map(|tag| (tag, 1)).collect::<Vec<_>>();
        let many = vec![(50, 12)];
        for counts in [
            many.clone(),
            single(0),
            [many.clone(), single(60)].concat(),
            [single(0), many.clone()].concat(),
            [single(0), many, single(60)].concat(),
            (0..6).map(|tag| (tag, 3)).collect(),
        ] {
            let list = list_with(&counts);
            let lines = (list.len() / LINE) as u64;
            for (n, p) in [(2, 1), (2, 3), (3, 2), (8, 1)] {
                for settings in legal_copies(lines, n, p) {
                    self.accepted(&list, settings);
                }
            }
        }
    }

    /// Longer lists, each hearing by a lookup of its own.
    pub fn each_hearing(&self) {
        let random = &mut Random::new(3);
        for (lines, spread, n, p) in [(90, 3, 2, 1), (150, 1, 3, 1), (200, 2, 4, 3), (90, 0, 2, 2)]
        {
            let list = list(random, lines, spread);
            for settings in legal_copies(lines, n, p) {
                if settings[2] == 1 || settings[3] <= 5 {
                    let image = image_of(&list, settings);
                    let tune_ins = 0..(image.len() / 240) as u64;
                    let waits = |tag| {
                        tune_ins.clone().map(|tune_in| (self.elapsed)(&image, tag, tune_in)).sum()
                    };
                    let sum: u64 = different_tags(&list).into_iter().map::<u64, _>(waits).sum();
                    let mean = (self.mean)(&list, settings).unwrap();
                    assert_eq!(mean.sum, sum, "{settings:?}");
                }
            }
        }
    }

    /// Damaged lists and settings, by what they are refused.
    fn damaged(&self) {
        let random = &mut Random::new(4);
        let mut answers = [0; 18];
        for _ in 0..5_000 {
            let good = short_list(random);
            let list = if random.below(2) == 0 { damaged_list(random, &good) } else { good };
            let settings =
                [2 + random.below(8), 1 + random.below(9), 1 + random.below(3), random.below(3)];
            answers[self.number(&list, settings) as usize] += 1;
        }
        for number in [0, 1, 2, 3, 4, 5, 17] {
            assert!(answers[number] > 30, "{answers:?}");
        }
    }

    /// Each byte of a list, altered to each of 256.
    fn single_bytes(&self) {
        let list = list_with(&[(9, 1), (99_999, 2)]);
        let mut answers = [0; 18];
        each_alteration(&list, |list| answers[self.number(list, [2, 1, 1, 1]) as usize] += 1);
        assert!([0, 3, 4].iter().all(|&number| answers[number] > 50), "{answers:?}");
    }

    /// Faults come together one after the other, each of a number that is tested
    /// before those there already.
    fn order(&self) {
        let check = |list: &[u8], settings: Settings, number, place| {
            assert_eq!((self.mean)(list, settings), Err(Refusal { number, place }));
        };
        for (layout, copies) in [(1, 0), (2, 1)] {
            check(b"", [2, 1, layout, copies], 17, 0);
            check(b"", [2, 1, layout, 2], 5, 0);
            check(b"\n", [2, 1, layout, 2], 2, 0);
            check(b"", [9, 1, layout, copies], 1, 0);
            check(b"", [2, 9, layout, copies], 1, 0);
        }
        check(b"", [2, 1, 3, 1], 1, 0);
        let mut list = list_of(&[3, 5, 8, 9]);
        check(&list, [2, 1, 1, 2], 5, 0);
        list[LINE * 2 + 9] = b'4';
        check(&list, [2, 1, 1, 2], 4, 2);
        list[LINE * 3 + 9] = b' ';
        check(&list, [2, 1, 1, 2], 3, 3);
        list.push(b'\n');
        check(&list, [2, 1, 1, 2], 2, 0);
        check(&list, [2, 1, 0, 2], 1, 0);
    }

    /// The most lines, and the most buckets.
    pub fn limits(&self) {
        let list = list_with(&[(7, 40_001)]);
        let full = &list[..LINE * 40_000];
        assert_eq!(self.number(&list, [8, 8, 1, 0]), 2);
        assert_eq!(self.number(full, [2, 1, 2, 40_001]), 5);
        assert_eq!(self.number(full, [2, 1, 2, 40_000]), 6);
        let most = (1..5_000).rfind(|&m| buckets(40_000, [8, 8, 2, m]).is_ok()).unwrap();
        assert_eq!(self.number(full, [8, 8, 2, most + 1]), 6);
        self.accepted(full, [8, 8, 2, most]);
    }

    /// The longest list: with many lines for a tag and few, with one line for each
    /// tag, with leading zeros.
    pub fn full_size(&self) {
        let random = &mut Random::new(5);
        let any = list(random, 40_000, 3);
        let single = list_of(&(4_294_927_296..=4_294_967_295).collect::<Vec<u64>>());
        for list in [&any, &single] {
            for settings in [[2, 1, 1, 4], [3, 2, 1, 3], [8, 8, 1, 1], [2, 1, 2, 1], [5, 7, 2, 40]]
            {
                self.accepted(list, settings);
            }
        }
        self.accepted(&with_zeros(random, &any), [2, 1, 1, 0]);
        self.accepted(&full_of_zeros(&any), [8, 8, 2, 128]);
        let long: Vec<(u64, usize)> = (0..200).map(|tag| (tag, 200)).collect();
        for settings in [[2, 1, 1, 4], [8, 1, 1, 4], [8, 8, 2, 128]] {
            self.accepted(&list_with(&long), settings);
            self.accepted(&list_with(&[(7, 39_999), (8, 1)]), settings);
        }
    }
}
