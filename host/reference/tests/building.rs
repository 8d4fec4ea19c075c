//! The fast builder against the slow one.

mod common;

use common::build_into;
use reference::generate::{list, Random};
use reference::yards::{damaged_building, image_of, legal_copies, levels};
use reference::{literal, Refusal};

const ROOM: usize = 240 * 99_999;

fn compare(list: &[u8], [n, p, layout, copies]: [u64; 4], room: usize) {
    let built = build_into(list, [n, p, layout, copies], room);
    let literal = literal::build(list, n, p, layout, copies, room);
    assert!(built == literal, "n {n}, p {p}, layout {layout}, copies {copies}, {list:?}");
}

#[test]
fn small_lists_and_all_settings() {
    let random = &mut Random::new(1);
    for lines in 0..=40 {
        for n in 2..=8 {
            for p in 1..=8 {
                for settings in legal_copies(lines, n, p) {
                    let spread = random.pick(&[0, 1, 1, 2, 100, 100_000_000]);
                    let list = list(random, lines, spread);
                    // Room to spare, just enough, one byte too little.
                    let length = image_of(&list, settings).len();
                    compare(&list, settings, length + 500);
                    if lines % 8 == 5 {
                        compare(&list, settings, length);
                        compare(&list, settings, length - 1);
                    }
                }
            }
        }
    }
}

#[test]
fn longer_lists() {
    let random = &mut Random::new(2);
    for (lines, n, p) in
        [(250, 2, 1), (260, 2, 8), (300, 3, 1), (130, 4, 1), (515, 8, 1), (600, 8, 8), (66, 2, 1)]
    {
        let list = list(random, lines, 2);
        for settings in legal_copies(lines, n, p) {
            if settings[2] == 1 || settings[3] <= 5 {
                compare(&list, settings, ROOM);
            }
        }
    }
}

#[test]
fn copies_out_of_range() {
    for lines in [0, 1, 2, 3, 8, 9, 33, 65] {
        let list = list(&mut Random::new(3), lines, 1);
        for n in [2, 3, 8] {
            for p in [1, 3, 8] {
                let (k, data) = levels(lines, n, p);
                for copies in [0, 1, k - 1, k, 4, 5, data, data + 1, u64::MAX] {
                    compare(&list, [n, p, 1, copies], 240 * 3_000);
                    if copies.saturating_mul(data) < 3_000 {
                        compare(&list, [n, p, 2, copies], 240 * 3_000);
                    }
                }
            }
        }
    }
}

#[test]
fn damaged_lists() {
    let random = &mut Random::new(4);
    let mut refused = [0; 15];
    for _ in 0..20_000 {
        let (list, settings, room) = damaged_building(random);
        compare(&list, settings, room);
        if let Err(refusal) = build_into(&list, settings, room) {
            refused[refusal.number as usize] += 1;
        }
    }
    for number in [1, 2, 3, 4, 5, 7] {
        assert!(refused[number] > 100, "{refused:?}");
    }
}

/// 3 comes before 4 wherever it stands, and each names its first line.
#[test]
fn order_of_refusals() {
    let mut list = reference::generate::list_of(&[5, 3, 2, 8]);
    let settings = [2, 1, 1, 9];
    assert_eq!(build_into(&list, settings, 0), Err(Refusal { number: 4, place: 1 }));
    list[27 * 3 + 26] = b' ';
    assert_eq!(build_into(&list, settings, 0), Err(Refusal { number: 3, place: 3 }));
    list.push(b'\n');
    assert_eq!(build_into(&list, settings, 0), Err(Refusal { number: 2, place: 0 }));
    assert_eq!(build_into(&list, [9, 1, 1, 9], 0), Err(Refusal { number: 1, place: 0 }));
}

#[test]
fn large_lists() {
    let random = &mut Random::new(5);
    let list = list(random, 40_000, 3);
    let longer = [&list[..], &list[list.len() - 27..]].concat();
    assert_eq!(build_into(&longer, [8, 8, 1, 0], 0), Err(Refusal { number: 2, place: 0 }));
    assert_eq!(build_into(&list, [2, 1, 2, 40_000], 0), Err(Refusal { number: 6, place: 0 }));
    assert_eq!(build_into(&list, [2, 1, 2, 40_001], 0), Err(Refusal { number: 5, place: 0 }));
    for settings in [[2, 1, 1, 4], [8, 1, 1, 4], [3, 2, 1, 3], [2, 1, 2, 1], [8, 8, 2, 128]] {
        let image = build_into(&list, settings, ROOM).unwrap();
        // Every data line is there, in order, and positions and N are right.
        let mut lines = Vec::new();
        for (place, bucket) in (0..).zip(image.chunks(240)) {
            let field = |start: usize| literal::number(&bucket[start..start + 6]).unwrap();
            assert_eq!(field(0), place);
            assert_eq!(field(6), (image.len() / 240) as u64 - place);
            if bucket[24] == b'D' {
                for i in 0..(bucket[28] - b'0') as usize {
                    lines.extend(&bucket[29 + 26 * i..][..26]);
                    lines.push(b'\n');
                }
            }
        }
        assert!(lines == list);
    }
}
