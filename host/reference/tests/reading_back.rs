//! Reading back against building.

mod common;

use common::read_back_into;
use reference::generate::{damaged_image, list, Random};
use reference::yards::{image_of, legal_copies, legal_settings, SMALL};
use reference::{literal, Refusal};

/// More than the lines of any image here need.
const ROOM: usize = 27 * 3_000;

#[test]
fn inverts_building() {
    let random = &mut Random::new(1);
    for lines in 0..=40 {
        for n in 2..=8 {
            for p in 1..=8 {
                for settings in legal_copies(lines, n, p) {
                    let spread = random.pick(&[0, 1, 3, 1_000_000]);
                    let list = list(random, lines, spread);
                    let image = image_of(&list, settings);
                    for room in [list.len(), list.len() + 100] {
                        assert!(read_back_into(&image, settings, room).as_ref() == Ok(&list));
                    }
                    if lines > 0 {
                        let short = read_back_into(&image, settings, list.len() - 1);
                        assert_eq!(short, Err(Refusal { number: 7, place: 0 }));
                    }
                }
            }
        }
    }
}

#[test]
fn inverts_building_of_large_lists() {
    let list = list(&mut Random::new(2), 40_000, 3);
    for settings in [[2, 1, 1, 4], [8, 1, 1, 4], [3, 2, 1, 3], [2, 1, 2, 1], [8, 8, 2, 128]] {
        let image = image_of(&list, settings);
        assert!(read_back_into(&image, settings, list.len()).as_ref() == Ok(&list));
    }
}

fn compare(image: &[u8], [n, p, layout, copies]: [u64; 4], room: usize) -> bool {
    let fast = read_back_into(image, [n, p, layout, copies], room);
    let slow = literal::read_back(image, n, p, layout, copies, room);
    assert!(fast == slow, "n {n}, p {p}, layout {layout}, copies {copies}: {fast:?} {slow:?}");
    fast.is_ok()
}

/// Each byte of small images, altered in several ways: accepted exactly if the
/// altered image is what its own lines build.
#[test]
fn single_bytes() {
    let random = &mut Random::new(3);
    let mut accepted = 0;
    for (lines, settings) in SMALL {
        let list = list(random, lines, 2);
        let image = image_of(&list, settings);
        for place in 0..image.len() {
            let mut altered = image.clone();
            for byte in [b' ', b'0', b'1', b'7', b'D', b'I', b'\n', random.below(256) as u8] {
                altered[place] = byte;
                if altered != image {
                    accepted += compare(&altered, settings, ROOM) as u64;
                }
            }
        }
    }
    // A figure other than the tag may be another one.
    assert!(accepted > 100);
}

#[test]
fn damaged_images_and_other_settings() {
    let random = &mut Random::new(4);
    for _ in 0..6_000 {
        let lines = random.below(20);
        let list = list(random, lines, 1);
        let settings = legal_settings(random, lines);
        let mut image = image_of(&list, settings);
        if random.below(2) == 0 {
            image = damaged_image(random, &image);
        }
        let room = 27 * random.below(22) as usize;
        compare(&image, settings, room);
        let mut other = settings;
        other[random.below(4) as usize] = random.below(10);
        compare(&image, other, room);
    }
}

/// "two list sizes can share one N": n 8, p 1, r 2 and N 598.
#[test]
fn two_sizes_of_one_n() {
    let random = &mut Random::new(5);
    for lines in [472, 513] {
        let list = list(random, lines, 1);
        let image = image_of(&list, [8, 1, 1, 2]);
        assert_eq!(image.len(), 240 * 598);
        assert!(read_back_into(&image, [8, 1, 1, 2], ROOM) == Ok(list));
    }
}
