//! Lists in lent buffers whose lines come and go, and what document 02, C-14, says
//! of them; for tests of reference and library.

mod bounds;
mod held;

use crate::generate::{damaged_list, line, list_from, with_zeros, Random};
use crate::line::LINE;
use crate::yards::{legal_settings, short_list};
use crate::{blanked, Changed, Refusal, Settings};
use held::{behind_tag, numbers, Held, Model, ROOM};

/// What a change is given beside the list's buffer: the list's number of lines, a
/// line, settings, and the bytes that the image's buffer has.
#[derive(Clone, Copy, Debug)]
pub struct Given<'a> {
    pub lines: u64,
    pub line: &'a [u8],
    pub settings: Settings,
    pub room: usize,
}

/// What a change makes: the counts and the image, or the refusal.
pub type Made = Result<(Changed, Vec<u8>), Refusal>;

/// A change of the list in a buffer.
pub type Call = fn(&mut [u8], Given) -> Made;

pub struct Calls {
    pub arrive: Call,
    pub take_out: Call,
}

/// A line of the same numbers, with leading zeros or without.
fn rewritten(random: &mut Random, line: &[u8]) -> Vec<u8> {
    with_zeros(random, &blanked(line))
}

/// A short list; a line may have the numbers of the one before it.
fn repeating_list(random: &mut Random) -> Vec<u8> {
    let mut list = short_list(random);
    for at in (LINE..list.len()).step_by(LINE) {
        if random.below(3) == 0 {
            let line = rewritten(random, &list[at - LINE..at]);
            list[at..at + LINE].copy_from_slice(&line);
        }
    }
    list
}

/// A line to give: one of the list, in its bytes or others, one of its tag, or any.
fn given_line(random: &mut Random, list: &[u8]) -> Vec<u8> {
    let start = random.pick(&[0, 0, 4_294_967_290]);
    let any = list_from(random, 1, start, 12);
    let place = random.below((list.len() / LINE) as u64 + 1) as usize;
    let line = list.chunks_exact(LINE).nth(place).unwrap_or(&any);
    match random.below(6) {
        0 | 1 => line.to_vec(),
        2 => rewritten(random, line),
        3 => [&line[..10], &any[10..]].concat(),
        _ => any,
    }
}

/// Any settings, or such as suit a list of so many lines, one less or one more.
fn given_settings(random: &mut Random, lines: u64) -> Settings {
    if random.below(6) == 0 {
        return [1 + random.below(8), random.below(10), random.below(4), random.below(4)];
    }
    let around = (lines + random.below(3)).saturating_sub(1);
    legal_settings(random, around)
}

/// A list in a buffer with place or without, and a line to give. List and line may
/// be damaged, and the number of lines may be another.
fn any_change(random: &mut Random) -> (Held, Vec<u8>) {
    let mut list = repeating_list(random);
    let mut line = given_line(random, &list);
    for bytes in [&mut list, &mut line] {
        if random.below(7) == 0 {
            *bytes = damaged_list(random, bytes);
        }
    }
    let mut held = Held::new(&list, random.below(80) as usize);
    if random.below(6) == 0 {
        let lines = held.lines;
        // In 64 bits 27 times the last is a small number.
        let others = [0, lines + 1, 40_000, 40_001, u64::MAX, u64::MAX / LINE as u64 + 1];
        held.lines = random.pick(&[&others[..], &[lines.saturating_sub(1)]].concat());
    }
    (held, line)
}

impl Calls {
    /// What lets a change be undone, and a place be used again.
    pub fn laws(&self) {
        self.arrive_then_take_out();
        self.take_out_then_arrive();
        self.freed_places();
    }

    /// Changes of any kind, by what they are refused.
    pub fn any_changes(&self) {
        let random = &mut Random::new(1);
        for (call, own) in [(self.arrive, 16), (self.take_out, 15)] {
            let mut answers = [0; 17];
            for _ in 0..20_000 {
                let (mut held, line) = any_change(random);
                let settings = given_settings(random, held.lines.min(12));
                let room = random.pick(&[ROOM, ROOM, ROOM, 240 * 5, 240 * 12 - 1]);
                let changed = held.change(call, &line, settings, room);
                answers[changed.map_or_else(|refusal| refusal.number as usize, |_| 0)] += 1;
            }
            for number in [0, 1, 2, 3, 4, own, 5, 7] {
                assert!(answers[number] > 100, "{answers:?}");
            }
        }
    }

    /// Many changes of one buffer, its lines kept apart as well.
    pub fn sequences(&self) {
        let mut answers = [0; 17];
        for seed in 0..100 {
            let random = &mut Random::new(seed);
            let mut held = Held::new(&[], random.below(250) as usize);
            let mut model = Model::new(&held.buffer);
            for _ in 0..60 {
                let plain = line(random.below(3), random.below(2), 0, 0);
                let line = with_zeros(random, plain.as_bytes());
                let (call, expected) = match random.below(2) {
                    0 => (self.arrive, model.arrive(&line)),
                    _ => (self.take_out, model.take_out(&line)),
                };
                let [n, p] = [2 + random.below(7), 1 + random.below(8)];
                let settings = random.pick(&[[n, p, 1, 0], [n, p, 2, 1]]);
                let changed = held.change(call, &line, settings, ROOM);
                assert_eq!(changed.map(|_| ()), expected);
                assert!(held.buffer == model.buffer());
                answers[expected.map_or_else(|refusal| refusal.number as usize, |()| 0)] += 1;
            }
        }
        assert!([0, 15, 16].iter().all(|&number| answers[number] > 100), "{answers:?}");
    }

    /// A line that arrives and is taken out again leaves the list as it was, and
    /// its place blank. If the list has its numbers already, the first line with
    /// them goes, so that it does not matter which is done first.
    fn arrive_then_take_out(&self) {
        let random = &mut Random::new(2);
        let mut present = 0;
        for _ in 0..3_000 {
            let list = repeating_list(random);
            let line = given_line(random, &list);
            let before = Held::new(&list, 60);
            let mut held = before.clone();
            held.short(self.arrive, &line).unwrap();
            held.short(self.take_out, &line).unwrap();
            let mut other = before.clone();
            if other.short(self.take_out, &line) == Err(Refusal::of(15)) {
                let behind = &before.buffer[list.len() + LINE..];
                assert!(held.buffer == [&list, &[b' '; LINE][..], behind].concat());
            } else {
                other.short(self.arrive, &line).unwrap();
                assert!(held.list() == other.list());
                present += 1;
            }
        }
        assert!((300..2_700).contains(&present), "{present}");
    }

    /// A line that is taken out and arrives again stands behind the others of its
    /// tag, and all else is as it was.
    fn take_out_then_arrive(&self) {
        let random = &mut Random::new(3);
        let mut moved = 0;
        for _ in 0..500 {
            let list = repeating_list(random);
            let lines: Vec<&[u8]> = list.chunks(LINE).collect();
            for (place, &line) in lines.iter().enumerate() {
                let equal = |other: &&[u8]| numbers(other) == numbers(line);
                if lines[..place].iter().any(equal) {
                    continue;
                }
                let mut held = Held::new(&list, 0);
                held.short(self.take_out, line).unwrap();
                held.short(self.arrive, line).unwrap();
                let mut expected = lines.clone();
                expected[place..behind_tag(line, &lines)].rotate_left(1);
                assert!(held.buffer == expected.concat());
                moved += (held.buffer != list) as u64;
            }
        }
        assert!(moved > 300, "{moved}");
    }

    /// In a buffer that is full each place freed serves an arrival, and no more.
    fn freed_places(&self) {
        let random = &mut Random::new(4);
        for free in (0..LINE).cycle().take(300) {
            let list = repeating_list(random);
            let before = Held::new(&list, free);
            let mut held = before.clone();
            let other = list_from(random, 1, 0, 30);
            assert_eq!(held.short(self.arrive, &other), Err(Refusal::of(16)));
            for line in list.chunks(LINE) {
                held.short(self.take_out, line).unwrap();
            }
            assert!(held.buffer[..list.len()].iter().all(|&byte| byte == b' '));
            for line in list.chunks(LINE) {
                held.short(self.arrive, line).unwrap();
            }
            assert!(held.buffer == before.buffer);
            assert_eq!(held.short(self.arrive, &other), Err(Refusal::of(16)));
        }
    }
}
