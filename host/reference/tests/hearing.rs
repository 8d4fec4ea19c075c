//! Demand 3 by brute force: every tag around, every tune-in.

mod common;

use common::lookup_into;
use reference::air::{hear_bounds, hear_changing, hearing, losses, Heard, Hears, Sending};
use reference::generate::{list, list_from, list_of, Random};
use reference::yards::{damaged_cycle, image_of, legal_copies, tags, tags_around};
use reference::{literal, Answer, Listener, Looked, Refusal};

/// One hearing over a cycle that is sent again unchanged, and the lookup.
fn hear(list: &[u8], image: &[u8], sent: &Sending, tag: u64, tune_in: u64) {
    let Heard { found, heard, elapsed, lines, .. } =
        hearing(&[sent, sent], tag, tune_in, &mut Listener::new(tag));
    let ours: Vec<u8> = list
        .chunks(27)
        .zip(tags(list))
        .filter(|line| line.1 == tag)
        .flat_map(|line| line.0)
        .copied()
        .collect();
    let looked = Looked { found, heard, elapsed, lines };
    assert!(lookup_into(image, tag, tune_in, ours.len()) == Ok((looked, ours.clone())));
    assert!(lookup_into(image, tag, tune_in, ours.len() + 5) == Ok((looked, ours.clone())));
    if found {
        let short = lookup_into(image, tag, tune_in, ours.len() - 1);
        assert_eq!(short, Err(Refusal { number: 7, place: 0 }));
    }
}

fn hear_all(list: &[u8], settings: [u64; 4]) {
    let image = image_of(list, settings);
    let sent = Sending::new(list.to_vec(), settings);
    for tag in tags_around(list) {
        for tune_in in 0..sent.buckets() {
            hear(list, &image, &sent, tag, tune_in);
        }
    }
}

#[test]
fn small_lists_and_all_settings() {
    let random = &mut Random::new(1);
    for lines in 0..=18 {
        for n in 2..=8 {
            for p in 1..=8 {
                for settings in legal_copies(lines, n, p) {
                    let spread = [0, 1, 1, 2][random.below(4) as usize];
                    let start = [0, 0, 7, 4_294_967_290][random.below(4) as usize];
                    hear_all(&list_from(random, lines, start, spread), settings);
                }
            }
        }
    }
}

/// Tags from 1 to 3 in every order that never falls, n 2, p 1.
#[test]
fn every_short_list() {
    for lines in 1..=6 {
        for code in 0..3u64.pow(lines) {
            let tags: Vec<u64> = (0..lines).map(|i| 1 + code / 3u64.pow(i) % 3).collect();
            if tags.is_sorted() {
                for settings in legal_copies(lines as u64, 2, 1) {
                    hear_all(&list_of(&tags), settings);
                }
            }
        }
    }
}

#[test]
fn deeper_trees() {
    let random = &mut Random::new(2);
    for (lines, n, p) in [(33, 2, 1), (40, 2, 2), (40, 3, 1), (70, 4, 1), (80, 8, 1)] {
        for settings in legal_copies(lines, n, p) {
            if settings[2] == 1 || settings[3] <= 3 {
                hear_all(&list(random, lines, 1), settings);
            }
        }
    }
}

#[test]
fn large_lists() {
    let random = &mut Random::new(3);
    for settings in [[8, 8, 1, 1], [2, 1, 1, 4], [8, 1, 1, 4], [8, 8, 2, 4], [3, 2, 2, 2]] {
        let list = list(random, 5_000, 2);
        let image = image_of(&list, settings);
        let sent = Sending::new(list.clone(), settings);
        for _ in 0..60 {
            let tag = random.below(5_200);
            hear(&list, &image, &sent, tag, random.below(sent.buckets()));
        }
    }
}

/// Listener and lookup over damaged images, against the slow ones.
#[test]
fn damaged_images() {
    let random = &mut Random::new(4);
    let mut ends = [0; 15];
    for _ in 0..20_000 {
        let image = damaged_cycle(random, 16, 4);
        let buckets = (image.len() / 240) as u64;
        for _ in 0..3 {
            let tag = random.below(20);
            let tune_in = random.below(10 * buckets + 1) % (buckets + 1);
            let room = 27 * random.below(8) as usize;
            let fast = lookup_into(&image, tag, tune_in, room);
            let slow = literal::lookup(&image, tag, tune_in, room);
            let number = fast.as_ref().map_or_else(|refusal| refusal.number, |_| 0);
            ends[number as usize] += 1;
            let fast = fast.map(|(looked, lines)| {
                assert_eq!(lines.len() as u64, 27 * looked.lines);
                (looked.found, looked.heard, looked.elapsed, lines)
            });
            assert!(fast == slow, "{fast:?} {slow:?}");
            let mut both = Both::new(tag);
            losses::wander(random, &image, |bucket| both.give(bucket).0);
        }
    }
    for number in [0, 7, 8, 9, 10, 11, 12] {
        assert!(ends[number] > 100, "{ends:?}");
    }
}

/// The listener and the slow one, step by step.
struct Both {
    fast: Listener,
    slow: literal::Listener,
}

impl Both {
    fn new(tag: u64) -> Both {
        Both { fast: Listener::new(tag), slow: literal::Listener::new(tag) }
    }

    fn with_counts(tag: u64, heard: u64, elapsed: u64) -> Both {
        Both {
            fast: Listener::new(tag).with_counts(heard, elapsed),
            slow: literal::Listener::with_counts(tag, heard, elapsed),
        }
    }

    fn check_counts(&self) {
        assert_eq!(self.fast.counts(), (self.slow.heard(), self.slow.elapsed()));
    }
}

impl Hears for Both {
    fn hear(&mut self, bucket: &[u8]) -> (Answer, u64, u64) {
        let answer = self.fast.hear(bucket);
        assert_eq!(answer, self.slow.step(bucket));
        self.check_counts();
        answer
    }

    fn lose(&mut self) -> (Answer, u64, u64) {
        let answer = self.fast.lose();
        assert_eq!(answer, self.slow.lost());
        self.check_counts();
        answer
    }

    fn counts(&self) -> (u64, u64) {
        self.fast.counts()
    }
}

/// Lists and settings that change from cycle to cycle.
#[test]
fn changing_lists() {
    hear_changing(Both::new);
}

#[test]
fn bounds_of_8_to_10() {
    hear_bounds(Both::new);
}

#[test]
fn lost_buckets() {
    losses::hear_unchanged(Both::new);
}

#[test]
fn lost_buckets_of_changing_lists() {
    losses::hear_changing(Both::new);
}

#[test]
fn answers_to_lost_buckets() {
    losses::hear_ways(Both::new);
}

#[test]
fn counts_stop() {
    losses::hear_near_stop(Both::with_counts);
}

/// Single buckets with numbers at the bounds of their ranges.
#[test]
fn bounds_of_a_bucket() {
    let step = |bucket: &str| {
        let answer = Listener::new(5).step(bucket.as_bytes());
        let (slow, ..) = literal::Listener::new(5).step(bucket.as_bytes());
        assert_eq!(answer.1, slow, "{bucket}");
        answer.1
    };
    let numbers = [0, 1, 2, 49_999, 50_000, 99_998, 99_999, 100_000, 100_001, 999_999];
    for position in numbers {
        for to_cycle in numbers {
            for other in numbers {
                for (letter, segment, follow_on) in
                    [('I', other, 0), ('I', 1, other), ('D', other, 0), ('D', 1, other)]
                {
                    let head =
                        format!("{position:>6}{to_cycle:>6}{segment:>6}{follow_on:>6}{letter}");
                    let body = if letter == 'I' {
                        " 0 0".into()
                    } else {
                        format!(" 0 1{:>10}     0   0     0", 5)
                    };
                    step(&format!("{:<239}\n", head + &body));
                }
            }
        }
    }
    let at =
        |position: u64| format!("{:<239}\n", format!("{position:>6}{:>6}{:>6}{:>6}I 0 0", 1, 1, 0));
    assert_eq!(step(&at(99_998)), Answer::Doze(1));
    assert_eq!(step(&at(99_999)), Answer::Refused(8));
}
