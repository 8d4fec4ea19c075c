use reference::generate::{each_alteration, list, list_of, Random};
use reference::yards::{damaged_building, image_of, legal_copies};

use crate::compare::{build, each_settings};

#[test]
fn small_lists_and_all_settings() {
    let random = &mut Random::new(1);
    for lines in 0..=30 {
        for n in 2..=8 {
            for p in 1..=8 {
                for settings in legal_copies(lines, n, p) {
                    let spread = random.pick(&[0, 1, 1, 2, 100, 100_000_000]);
                    let list = list(random, lines, spread);
                    let length = image_of(&list, settings).len();
                    // Room to spare, just enough, one byte too little, none.
                    assert_eq!(build(&list, settings, length + 500).number, 0);
                    if lines % 4 == 1 {
                        assert_eq!(build(&list, settings, length).number, 0);
                        assert_eq!(build(&list, settings, length - 1).number, 7);
                        assert_eq!(build(&list, settings, 0).number, 7);
                    }
                }
            }
        }
    }
}

#[test]
fn longer_lists() {
    let random = &mut Random::new(2);
    for (lines, n, p) in [
        (66, 2, 1),
        (250, 2, 1),
        (260, 2, 8),
        (300, 3, 1),
        (513, 8, 1),
        (4_100, 8, 8),
        (4_097, 4, 2),
    ] {
        let list = list(random, lines, 2);
        for settings in legal_copies(lines, n, p) {
            if settings[2] == 1 || settings[3] <= 5 {
                assert_eq!(build(&list, settings, image_of(&list, settings).len() + 1).number, 0);
            }
        }
    }
}

/// Numbers at and far beyond the bounds of each setting.
#[test]
fn any_settings() {
    let random = &mut Random::new(3);
    for lines in [0, 1, 5, 9, 17, 33] {
        let list = list(random, lines, 1);
        each_settings(random, |settings| {
            build(&list, settings, 240 * 400);
        });
    }
}

#[test]
fn damaged_lists() {
    let random = &mut Random::new(4);
    let mut refused = [0; 15];
    for _ in 0..20_000 {
        let (list, settings, room) = damaged_building(random);
        refused[build(&list, settings, room).number as usize] += 1;
    }
    for number in [0, 1, 2, 3, 4, 5, 7] {
        assert!(refused[number] > 100, "{refused:?}");
    }
}

/// Each byte of a list, altered to each of 256.
#[test]
fn single_bytes() {
    let tags = [9, 99_999, 4_294_967_295];
    let mut list = list_of(&tags);
    list[27 + 15] = b'7';
    list[54 + 10..54 + 26].copy_from_slice(b" 999999999999999");
    each_alteration(&list, |altered| {
        build(altered, [2, 1, 1, 1], 240 * 8);
    });
}

/// Bytes of any kind, of any length.
#[test]
fn any_bytes() {
    let random = &mut Random::new(5);
    for length in 0..200 {
        for limit in [2, 12, 256] {
            let list: Vec<u8> = (0..length)
                .map(|_| match random.below(limit) as u8 {
                    byte if limit == 256 => byte,
                    10 => b' ',
                    11 => b'\n',
                    digit => b'0' + digit,
                })
                .collect();
            build(&list, [2, 1, 1, 0], 240 * 8);
        }
    }
}

/// 3 comes before 4 wherever it stands, and each names its first line.
#[test]
fn order_of_refusals() {
    let mut list = list_of(&[5, 3, 2, 8]);
    let refused = |list: &[u8], n, room| {
        let answer = build(list, [n, 1, 1, 9], room);
        (answer.number, answer.place)
    };
    assert_eq!(refused(&list_of(&[1, 2]), 2, 0), (5, 0));
    assert_eq!(refused(&list, 2, 0), (4, 1));
    list[27 * 3 + 26] = b' ';
    assert_eq!(refused(&list, 2, 0), (3, 3));
    list.push(b'\n');
    assert_eq!(refused(&list, 2, 0), (2, 0));
    assert_eq!(refused(&list, 9, 0), (1, 0));
}
