//! A bucket's lines one by one.

use pansdaoh::calls;
use reference::generate::{each_alteration, list, Random};
use reference::yards::image_of;
use reference::Refusal;

/// Line i on both sides.
pub fn compare(bucket: &[u8], i: u64) -> calls::Line {
    let (number, place, present, [tag, tare, code, weighing]) = match reference::line(bucket, i) {
        Ok(Some(figures)) => (0, 0, 1, figures),
        Ok(None) => (0, 0, 0, [0; 4]),
        Err(Refusal { number, place }) => (number, place, 0, [0; 4]),
    };
    let line = calls::line(bucket, i);
    assert_eq!(line, calls::Line { number, place, present, tag, tare, code, weighing });
    line
}

/// Every line of every bucket of a cycle, the places past them and far ones.
#[test]
fn all_lines() {
    let random = &mut Random::new(5);
    for (count, settings) in
        [(60, [8, 8, 2, 3]), (61, [3, 2, 1, 1]), (9, [2, 1, 1, 2]), (0, [2, 1, 1, 0])]
    {
        let image = image_of(&list(random, count, 2), settings);
        let mut lines = 0;
        for bucket in image.chunks(240) {
            for i in (0..10).chain([255, 1 << 32, u64::MAX]) {
                lines += compare(bucket, i).present;
            }
        }
        assert_eq!(lines, count);
    }
}

/// Each byte of a bucket of both kinds altered to each of 256, and other lengths.
#[test]
fn altered() {
    let random = &mut Random::new(6);
    let image = image_of(&list(random, 40, 2), [3, 5, 1, 1]);
    let is_data = |bucket: &&[u8]| bucket[24] == b'D';
    let data = image.chunks(240).find(is_data).unwrap();
    let index = image.chunks(240).find(|bucket| !is_data(bucket)).unwrap();
    let mut refused = 0;
    for bucket in [data, index] {
        each_alteration(bucket, |altered| {
            for i in [0, 4, 5] {
                refused += (compare(altered, i).number == 8) as u64;
            }
        });
        for length in 0..240 {
            assert_eq!(compare(&bucket[..length], 0).number, 8);
        }
    }
    assert!(refused > 10_000, "{refused}");
}

/// As Rust sees it.
#[test]
fn results() {
    let image = image_of(b"         7  8200  31   456\n", [2, 1, 1, 0]);
    let (index, data) = image.split_at(240);
    let line = pansdaoh::Line { tag: 7, tare: 8200, code: 31, weighing: 456 };
    assert_eq!(pansdaoh::line(data, 0), Ok(Some(line)));
    assert_eq!(pansdaoh::line(data, 1), Ok(None));
    assert_eq!(pansdaoh::line(index, 0), Ok(None));
    assert_eq!(pansdaoh::line(&data[1..], 0), Err(pansdaoh::Refusal { number: 8, place: 0 }));
}
