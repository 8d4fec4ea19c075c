//! Leading zeros in a list line (C-13).

use pansdaoh::calls::{self, Answer};
use reference::generate::{each_alteration, full_of_zeros, list_of};
use reference::yards::Settings;
use reference::zeros::{each_zero_on_air, Calls};
use reference::Refusal;

use crate::compare::{self, lookup};

/// The library's calls, held against those of the reference.
const CALLS: Calls = Calls { build, read_back };

fn build(list: &[u8], [n, p, layout, copies]: Settings, room: usize) -> Result<Vec<u8>, Refusal> {
    compare::build(list, [n, p, layout, copies], room);
    written(240, room, |out| calls::build(list, n, p, layout, copies, out))
}

fn read_back(image: &[u8], [n, p, l, c]: Settings, room: usize) -> Result<Vec<u8>, Refusal> {
    compare::read_back(image, [n, p, l, c], room);
    written(27, room, |out| calls::read_back(image, n, p, l, c, out))
}

/// What a call writes, so many bytes for each that it counts, or its refusal.
fn written(size: u64, room: usize, call: impl Fn(&mut [u8]) -> Answer) -> Result<Vec<u8>, Refusal> {
    let mut out = vec![0; room];
    match call(&mut out) {
        Answer { number: 0, count, .. } => {
            out.truncate((size * count) as usize);
            Ok(out)
        }
        Answer { number, place, .. } => Err(Refusal { number, place }),
    }
}

#[test]
fn lists() {
    CALLS.lists();
}

/// Each byte of a list with zeros, altered to each of 256.
#[test]
fn single_bytes() {
    let mut list = full_of_zeros(&list_of(&[9, 99_999, 4_294_967_295]));
    list[27..27 + 10].copy_from_slice(b"   0099999");
    list[54 + 10..54 + 26].copy_from_slice(b" 099990009000999");
    each_alteration(&list, |altered| {
        compare::build(altered, [2, 1, 1, 1], 240 * 8);
    });
}

#[test]
fn longest_list() {
    CALLS.longest();
}

/// A leading zero in a bucket is misprinted.
#[test]
fn on_air() {
    each_zero_on_air(|image, settings, place| {
        let bucket = &image[240 * place..][..240];
        assert_eq!(calls::line(bucket, 0).number, 8);
        let heard = lookup(image, 5, place as u64, 27 * 30);
        assert_eq!((heard.number, heard.place), (8, place as u64));
        assert_eq!(compare::read_back(image, settings, 27 * 30).number, 13);
    });
}
