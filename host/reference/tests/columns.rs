//! Columns, lines and buckets against the slow readings.

use reference::columns::{blank_zeros, print, read};
use reference::generate::{alter, line, Random};
use reference::{line as lines, literal};

const BYTES: [u8; 20] = [
    b' ', b'0', b'1', b'5', b'9', b'/', b':', b'\n', 0, 0x10, 0x19, 0x1f, 0x21, 0x29, 0x2f, 0x3f,
    0x7f, 0xa0, 0xb0, 0xff,
];

fn check<const W: usize>(columns: &[u8; W]) {
    // The columns stand at the start, in the midst and at the end of others.
    for start in [0, 3, 9] {
        let mut bytes = *b"98 1 0 76532 4 1 8";
        bytes[start..start + W].copy_from_slice(columns);
        assert_eq!(read::<W>(&bytes, start), literal::number(columns), "{columns:?}");
        let mut expected = bytes;
        literal::blank_zeros(&mut expected[start..start + W]);
        blank_zeros::<W>(&mut bytes, start);
        assert_eq!(bytes, expected, "{columns:?}");
    }
}

#[test]
fn two_columns_of_any_bytes() {
    for high in 0..=255 {
        for low in 0..=255 {
            check(&[high, low]);
        }
    }
}

#[test]
fn columns_of_chosen_bytes() {
    for i in 0..BYTES.len().pow(4) {
        let byte = |place: u32| BYTES[i / BYTES.len().pow(place) % BYTES.len()];
        check(&[byte(3), byte(2), byte(1), byte(0)]);
    }
    let random = &mut Random::new(1);
    for _ in 0..300_000 {
        let mut six = [b' '; 6];
        let mut eight = [b' '; 8];
        print(&mut six, random.figure(1_000_000));
        eight.copy_from_slice(format!("{:>8}", random.figure(100_000_000)).as_bytes());
        check(&six);
        check(&eight);
        for _ in 0..random.below(3) {
            alter(random, &mut six);
            alter(random, &mut eight);
        }
        check(&six);
        check(&eight);
    }
}

#[test]
fn printed_numbers() {
    for number in 0..1_000_000 {
        let mut columns = [b' '; 6];
        print(&mut columns, number);
        assert_eq!(columns, *format!("{number:>6}").as_bytes());
    }
}

#[test]
fn lines_of_any_content() {
    let random = &mut Random::new(2);
    let mut good = 0;
    for _ in 0..1_000_000 {
        let tag = random.figure(10_000_000_000);
        let tare = random.figure(1_000_000);
        let text = line(tag, tare, random.figure(10_000), random.figure(1_000_000));
        let mut figures: [u8; 26] = text.as_bytes()[..26].try_into().unwrap();
        for _ in 0..random.below(3) {
            alter(random, &mut figures);
        }
        let tag = literal::figures(&figures).map(|figures| figures[0]);
        assert_eq!(lines::tag_of(&figures), tag, "{figures:?}");
        good += tag.is_some() as u64;
    }
    assert!(200_000 < good && good < 800_000);
    for (tag, fits) in [(0, true), (4_294_967_295, true), (4_294_967_296, false)] {
        let text = line(tag, 0, 0, 0);
        assert_eq!(lines::tag(text.as_bytes()), fits.then_some(tag));
    }
}
