//! Leading zeros in a list line (C-13), against the slow version.

mod common;

use common::{build_into, lookup_into, read_back_into};
use reference::generate::{alter, Random};
use reference::yards::{damaged_building, Settings};
use reference::zeros::{each_zero_on_air, Calls};
use reference::{blanked, line, literal, Refusal};

/// The fast calls, held against the slow ones.
const CALLS: Calls = Calls { build, read_back };

fn build(list: &[u8], [n, p, layout, copies]: Settings, room: usize) -> Result<Vec<u8>, Refusal> {
    let built = build_into(list, [n, p, layout, copies], room);
    assert!(built == literal::build(list, n, p, layout, copies, room), "{list:?}");
    built
}

fn read_back(image: &[u8], [n, p, l, c]: Settings, room: usize) -> Result<Vec<u8>, Refusal> {
    let read = read_back_into(image, [n, p, l, c], room);
    assert!(read == literal::read_back(image, n, p, l, c, room));
    read
}

#[test]
fn lists() {
    CALLS.lists();
}

/// The list with its leading zeros made blank, of any list and any bytes.
#[test]
fn made_blank() {
    let random = &mut Random::new(4);
    let mut changed = 0;
    for _ in 0..100_000 {
        let (mut list, ..) = damaged_building(random);
        for _ in 0..random.below(4) {
            alter(random, &mut list);
        }
        let blank = blanked(&list);
        assert!(blank == literal::blanked(&list), "{list:?}");
        assert!(blank == blanked(&blank));
        changed += (blank != list) as u64;
    }
    assert!(changed > 10_000, "{changed}");
    let odd = b"0000000005008300\n";
    assert_eq!(blanked(odd), odd);
}

#[test]
fn longest_list() {
    Calls { build: build_into, read_back: read_back_into }.longest();
}

/// A leading zero in a bucket is misprinted.
#[test]
fn on_air() {
    each_zero_on_air(|image, settings, place| {
        let bucket = &image[240 * place..][..240];
        assert_eq!(line(bucket, 0), Err(Refusal { number: 8, place: 0 }));
        let heard = lookup_into(image, 5, place as u64, 27 * 30);
        assert_eq!(heard, Err(Refusal { number: 8, place: place as u64 }));
        assert_eq!(read_back(image, settings, 27 * 30), Err(Refusal { number: 13, place: 0 }));
    });
}
