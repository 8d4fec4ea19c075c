use reference::generate::{damaged_image, list, Random};
use reference::yards::{image_of, legal_copies, legal_settings, SMALL};

use crate::compare::read_back;

/// More than the lines of any image here need.
const ROOM: usize = 27 * 3_000;

#[test]
fn inverts_building() {
    let random = &mut Random::new(1);
    for lines in 0..=30 {
        for n in 2..=8 {
            for p in 1..=8 {
                for settings in legal_copies(lines, n, p) {
                    let spread = random.pick(&[0, 1, 3, 1_000_000]);
                    let list = list(random, lines, spread);
                    let image = image_of(&list, settings);
                    assert_eq!(read_back(&image, settings, list.len()).number, 0);
                    if lines % 4 == 1 {
                        assert_eq!(read_back(&image, settings, list.len() + 100).count, lines);
                        assert_eq!(read_back(&image, settings, list.len() - 1).number, 7);
                        assert_eq!(read_back(&image, settings, 0).number, 7);
                    }
                }
            }
        }
    }
}

/// Each byte of small images, altered in several ways.
#[test]
fn single_bytes() {
    let random = &mut Random::new(2);
    let mut accepted = 0;
    for (lines, settings) in SMALL {
        let image = image_of(&list(random, lines, 2), settings);
        let mut altered = image.clone();
        for place in 0..image.len() {
            for byte in [b' ', b'0', b'1', b'7', b'D', b'I', b'\n', random.below(256) as u8] {
                altered[place] = byte;
                accepted += (read_back(&altered, settings, 27 * 30).number == 0) as u64;
            }
            altered[place] = image[place];
        }
    }
    // A figure other than the tag may be another one.
    assert!(accepted > 100);
}

#[test]
fn damaged_images_and_other_settings() {
    let random = &mut Random::new(3);
    let mut refused = [0; 15];
    for _ in 0..10_000 {
        let lines = random.below(20);
        let list = list(random, lines, 1);
        let settings = legal_settings(random, lines);
        let mut image = image_of(&list, settings);
        if random.below(2) == 0 {
            image = damaged_image(random, &image);
        }
        if random.below(20) == 0 {
            image.truncate(random.below(image.len() as u64 + 1) as usize);
        }
        let room = 27 * random.below(22) as usize;
        refused[read_back(&image, settings, room).number as usize] += 1;
        let mut other = settings;
        other[random.below(4) as usize] = random.pick(&[0, 1, 2, 3, 4, 5, 8, 9, u64::MAX]);
        refused[read_back(&image, other, room).number as usize] += 1;
    }
    for number in [0, 1, 7, 11, 13] {
        assert!(refused[number] > 100, "{refused:?}");
    }
}

/// "two list sizes can share one N": n 8, p 1, r 2 and N 598.
#[test]
fn two_sizes_of_one_n() {
    let random = &mut Random::new(4);
    for lines in [472, 513] {
        let image = image_of(&list(random, lines, 1), [8, 1, 1, 2]);
        assert_eq!(image.len(), 240 * 598);
        assert_eq!(read_back(&image, [8, 1, 1, 2], ROOM).count, lines);
    }
}

/// Bytes of any kind, of any length.
#[test]
fn any_bytes() {
    let random = &mut Random::new(5);
    for length in 0..750 {
        let image: Vec<u8> = (0..length).map(|_| random.below(256) as u8).collect();
        read_back(&image, [2, 1, 1, 0], ROOM);
        read_back(&vec![b'D'; length], [2, 1, 1, 0], ROOM);
        read_back(&vec![b' '; length], [8, 8, 2, 1], ROOM);
    }
}
