//! Bounds of settings, lengths and numbers of lines, and the order of refusals.

use super::held::{Held, ROOM};
use super::{Call, Calls};
use crate::generate::{each_alteration, full_of_zeros, list, list_of, Random};
use crate::line::LINE;
use crate::yards::legal_copies;
use crate::{size, Refusal, Settings};

/// The most bytes of an image.
const MOST_ROOM: usize = 240 * 99_999;

impl Calls {
    /// Both calls, each with its own refusal.
    fn both(&self) -> [(Call, u64); 2] {
        [(self.arrive, 16), (self.take_out, 15)]
    }

    /// Numbers in and around their ranges.
    pub fn bounds(&self) {
        self.order_of_refusals();
        self.all_settings();
        self.lengths();
        self.single_bytes();
    }

    /// Faults come together one after the other, each of a number that is tested
    /// before those there already.
    fn order_of_refusals(&self) {
        for (call, own) in self.both() {
            let mut held = Held::new(&list_of(&[3, 5, 5, 8]), LINE);
            let (mut line, mut settings) = (list_of(&[5]), [2, 1, 1, 0]);
            let check = |held: &Held, line: &[u8], settings, number, place| {
                let changed = held.clone().change(call, line, settings, 239);
                assert_eq!(changed, Err(Refusal { number, place }));
            };
            check(&held, &line, settings, 7, 0);
            settings[3] = 3;
            check(&held, &line, settings, 5, 0);
            held.buffer.pop();
            line[15] = b'1';
            check(&held, &line, settings, own, 0);
            held.buffer[LINE + 9] = b'2';
            check(&held, &line, settings, 4, 1);
            line[26] = b' ';
            check(&held, &line, settings, 3, 4);
            held.buffer[LINE * 2 + 9] = b' ';
            check(&held, &line, settings, 3, 2);
            line.push(b'\n');
            check(&held, &line, settings, 2, 0);
            settings[2] = 3;
            check(&held, &line, settings, 1, 0);
        }
    }

    /// Settings that suit the list before a change or after it are judged on the
    /// changed list, and so is the room.
    fn all_settings(&self) {
        let random = &mut Random::new(5);
        let mut refused = 0;
        for lines in [0, 1, 2, 3, 8, 9, 16] {
            for (n, p) in (2..=8).flat_map(|n| (1..=8).map(move |p| (n, p))) {
                let list = list(random, lines, 1);
                let both = [legal_copies(lines, n, p), legal_copies(lines + 1, n, p)].concat();
                for settings in both {
                    let short = Held::new(&list, LINE);
                    refused += judged(short, self.arrive, &list_of(&[3]), settings, lines + 1);
                    if lines > 0 {
                        let line = &list[LINE * (random.below(lines) as usize)..][..LINE];
                        let short = Held::new(&list, 0);
                        refused += judged(short, self.take_out, line, settings, lines - 1);
                    }
                }
            }
        }
        assert!(refused > 100, "{refused}");
    }

    /// Each length of the list's buffer with each number of lines, and each length
    /// of the given line.
    fn lengths(&self) {
        let list = list_of(&[1, 2, 3, 4, 5]);
        let line = &list[..LINE];
        for (length, lines) in (0..=list.len()).flat_map(|l| (0..=6).map(move |lines| (l, lines))) {
            let held = || Held { buffer: list[..length].to_vec(), lines };
            let number = |call| held().short(call, line).err().map_or(0, |refusal| refusal.number);
            let places = (length / LINE) as u64;
            let full = if lines == places { 16 } else { 0 };
            let empty = if lines == 0 { 15 } else { 0 };
            let expected = if lines > places { (2, 2) } else { (full, empty) };
            let numbers = (number(self.arrive), number(self.take_out));
            assert_eq!(numbers, expected, "{length} bytes, {lines} lines");
        }
        for (call, _) in self.both() {
            for length in 0..=3 * LINE {
                let changed = Held::new(&list, LINE).short(call, &list[..length]);
                assert_eq!(changed.is_ok(), length == LINE);
                assert!(changed.is_ok() || changed == Err(Refusal::of(2)), "{length} bytes");
            }
        }
    }

    /// Each byte of list and given line, altered to each of 256.
    fn single_bytes(&self) {
        let mut list = list_of(&[9, 99_999, 99_999, 4_294_967_295]);
        let zeros = full_of_zeros(&list[LINE..2 * LINE]);
        list[2 * LINE..3 * LINE].copy_from_slice(&zeros);
        for (call, own) in self.both() {
            let mut answers = [0; 17];
            let mut count = |held: &mut Held, line: &[u8]| {
                let changed = held.short(call, line);
                answers[changed.map_or_else(|refusal| refusal.number as usize, |_| 0)] += 1;
            };
            for line in list.chunks(LINE) {
                each_alteration(line, |line| count(&mut Held::new(&list, LINE), line));
            }
            each_alteration(&list, |list| count(&mut Held::new(list, LINE), &zeros));
            assert!([0, 3, 4].iter().all(|&number| answers[number] > 50), "{answers:?}");
            assert_eq!(answers[own as usize] > 0, own == 15);
        }
    }

    /// The most lines, and the most buckets.
    pub fn limits(&self) {
        let list = list(&mut Random::new(6), 40_001, 3);
        let full = &list[..LINE * 40_000];
        let (first, last) = (&list[..LINE], &list[LINE * 40_000..]);
        let mut held = Held::new(full, LINE);
        let mut changed = |call: Call, line: &[u8], settings| {
            let changed = held.change(call, line, settings, MOST_ROOM);
            changed.map_or_else(|refusal| refusal.number, |changed| changed.lines)
        };
        assert_eq!(changed(self.arrive, last, [2, 1, 1, 4]), 16);
        assert_eq!(changed(self.take_out, first, [2, 1, 1, 4]), 39_999);
        assert_eq!(changed(self.arrive, last, [8, 8, 2, 128]), 40_000);
        assert_eq!(changed(self.arrive, first, [8, 8, 2, 128]), 16);
        assert_eq!(changed(self.take_out, last, [2, 1, 2, 2]), 6);
        for (call, _) in self.both() {
            let changed = Held::new(&list, LINE).change(call, first, [8, 8, 1, 0], MOST_ROOM);
            assert_eq!(changed, Err(Refusal::of(2)));
        }
        self.most_buckets(&list);
    }

    /// 6 is judged on the changed list, behind 16 and before 7.
    fn most_buckets(&self, list: &[u8]) {
        let most = (0..40_000).rfind(|&lines| size(lines, 2, 1, 2, 2, 0).is_ok()).unwrap();
        let change = |call: Call, lines: u64, free: usize, room: usize| {
            let mut held = Held::new(&list[..LINE * lines as usize], free);
            let changed = held.change(call, &list[..LINE], [2, 1, 2, 2], room);
            changed.map_or_else(|refusal| refusal.number, |changed| changed.lines)
        };
        assert_eq!(change(self.arrive, most - 1, LINE, MOST_ROOM), most);
        assert_eq!(change(self.arrive, most, LINE - 1, 0), 16);
        assert_eq!(change(self.arrive, most, LINE, 0), 6);
        assert_eq!(change(self.take_out, most + 1, 0, MOST_ROOM), most);
        assert_eq!(change(self.take_out, most + 1, 0, 0), 7);
        assert_eq!(change(self.take_out, most + 2, 0, 0), 6);
    }
}

/// The change gives what the settings say of the changed list, in room for its
/// image, and 7 in one byte less; 1 if they do not suit it.
fn judged(held: Held, call: Call, line: &[u8], settings: Settings, lines: u64) -> u64 {
    let [n, p, layout, copies] = settings;
    let changed = |room| held.clone().change(call, line, settings, room);
    match size(lines, n, p, layout, copies, 0) {
        Err(refusal) => {
            assert_eq!(changed(ROOM), Err(refusal));
            1
        }
        Ok(size) => {
            assert_eq!(changed(size.bytes as usize).unwrap().lines, lines);
            assert_eq!(changed(size.bytes as usize - 1), Err(Refusal::of(7)));
            0
        }
    }
}
