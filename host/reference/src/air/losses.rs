//! Lost buckets, as document 02, C-16, has them; for tests.

use super::{
    any_sending, data, hearing_with, index, short_sendings, tags_of, Heard, Hears, Sending,
};
use crate::generate::Random;
use crate::yards::damaged_cycle;
use crate::Answer;

/// How often hearings with lost buckets ended in which way.
#[derive(Debug, Default)]
struct Seen {
    found: u64,
    absent: u64,
    /// With no bucket lost, one, two, and more.
    lost: [u64; 4],
    /// Lines were handed over before a loss.
    void: u64,
    /// With a bucket lost, and as many heard, or gone by, as is allowed.
    at_limit: [u64; 2],
    /// Ended in the first cycle, the second, and later.
    cycle: [u64; 3],
}

impl Seen {
    fn count(&mut self, end: &Heard) {
        let ends = if end.found { &mut self.found } else { &mut self.absent };
        *ends += 1;
        self.lost[end.lost.min(3) as usize] += 1;
        self.void += (end.void > 0) as u64;
        self.cycle[end.cycle.min(2)] += 1;
    }

    /// Each of them came often.
    fn check(&self) {
        let Seen { found, absent, lost, void, cycle, .. } = self;
        let often = [&[*found, *absent, *void][..], lost, cycle].concat();
        assert!(often.iter().all(|&times| times > 100), "{self:?}");
    }
}

/// Which of the first buckets are lost: some, many, or the very first ones.
fn marks(random: &mut Random) -> u128 {
    let half = random.below(1 << 20);
    let quarter = half & random.below(1 << 20);
    random.pick(&[quarter, quarter, half, (1 << (half % 6)) - 1]) as u128
}

/// Every tag and every tune-in of small cycles, sent again and again: with buckets
/// lost at any time, and with the bucket lost that would be the last, once and twice.
pub fn hear_unchanged<H: Hears>(start: impl Fn(u64) -> H) {
    let random = &mut Random::new(6);
    let mut sendings = short_sendings();
    sendings.extend((0..20).map(|_| any_sending(random)));
    let mut seen = Seen::default();
    for sent in &sendings {
        for tag in tags_of(&[sent]) {
            for tune_in in 0..sent.buckets() {
                for _ in 0..4 {
                    unchanged(sent, tag, tune_in, marks(random), &start, &mut seen);
                }
                let mut marks = 0;
                for _ in 0..3 {
                    let last = unchanged(sent, tag, tune_in, marks, &start, &mut seen);
                    marks |= 1 << (last - 1);
                }
            }
        }
    }
    seen.check();
    assert!(seen.at_limit.iter().all(|&times| times > 100), "{seen:?}");
}

/// "With q buckets lost in all and an unchanged list, it still gets its exact lines
/// or a true absence, hears at most (q + 1) × (2 + k + max(1, C)) buckets, and ends
/// within (q + 1) × 2N." Returns how many it heard.
fn unchanged<H: Hears>(
    sent: &Sending,
    tag: u64,
    tune_in: u64,
    marks: u128,
    start: &impl Fn(u64) -> H,
    seen: &mut Seen,
) -> u64 {
    let end = hearing_with(&[sent], tag, tune_in, marks, &mut start(tag));
    let tries = end.lost + 1;
    let heard = [end.heard, tries * sent.heard_limit(tag)];
    // From the start of tune-in's cycle on.
    let ended = [tune_in + end.elapsed, tries * 2 * sent.buckets()];
    for (i, [count, limit]) in [heard, ended].into_iter().enumerate() {
        assert!(count <= limit, "{count} of {limit}: tag {tag}, tune-in {tune_in}, {marks:b}");
        seen.at_limit[i] += (end.lost > 0 && count == limit) as u64;
    }
    seen.count(&end);
    end.heard
}

/// Buckets lost at any time over lists and settings that change from cycle to
/// cycle.
pub fn hear_changing<H: Hears>(start: impl Fn(u64) -> H) {
    hear_cycles(|random| std::array::from_fn(|_| any_sending(random)), start);
}

/// The same over three cycles on air one after the other, made from a seed.
pub fn hear_cycles<H: Hears>(
    cycles: impl Fn(&mut Random) -> [Sending; 3],
    start: impl Fn(u64) -> H,
) {
    let random = &mut Random::new(7);
    let mut seen = Seen::default();
    for _ in 0..100 {
        let sendings = cycles(random);
        let air = &sendings.each_ref();
        for tag in tags_of(air) {
            for tune_in in 0..air[0].buckets() {
                let end = hearing_with(air, tag, tune_in, marks(random), &mut start(tag));
                seen.count(&end);
            }
        }
    }
    seen.check();
}

/// Buckets of an image, which may be damaged, given in turn: the awaited one or
/// another, at times cut, at times lost (None), and on after the end.
pub fn wander(random: &mut Random, image: &[u8], mut give: impl FnMut(Option<&[u8]>) -> Answer) {
    let buckets = (image.len() / 240) as u64;
    if buckets == 0 {
        return;
    }
    let mut place = random.below(buckets);
    let often = random.pick(&[0, 0, 1, 4]);
    for _ in 0..14 {
        if random.below(12) == 0 {
            place = random.below(buckets);
        }
        let length = if random.below(50) == 0 { random.below(250) as usize } else { 240 };
        let bucket = &image[240 * place as usize..];
        let bucket = &bucket[..length.min(bucket.len())];
        let is_lost = random.below(12) < often;
        if let Answer::Doze(distance) = give((!is_lost).then_some(bucket)) {
            place = (place + distance) % buckets;
        }
    }
}

/// What a listener is given, a bucket or None for one lost, and what it answers.
type Given = (Option<String>, Answer);

/// What a listener for tag 5 answers to lost buckets, and its counts then.
fn ways() -> Vec<(Vec<Given>, (u64, u64))> {
    let doze = |bucket: String, distance| (Some(bucket), Answer::Doze(distance));
    let refused = |bucket: String, number| (Some(bucket), Answer::Refused(number));
    let lost = || (None, Answer::Doze(1));
    let lost_late = || (None, Answer::Refused(14));
    let at_3 = |distance| doze(index([3, 4, distance], &[], &[]), distance);
    let round = || index([0, 7, 7], &[], &[(5, 7)]);
    vec![
        // Before tune-in, and several in a row; a data bucket serves as tune-in.
        (vec![lost()], (1, 1)),
        (vec![lost(), lost(), doze(data([6, 6, 2], 0, 5), 2), lost(), lost()], (5, 6)),
        // Behind a loss any position and N are taken; else position 5 and N 7 are due.
        (vec![at_3(2), refused(index([9, 9, 1], &[], &[]), 9), lost_late()], (1, 1)),
        (vec![at_3(2), lost(), doze(index([9, 9, 1], &[], &[]), 1)], (3, 4)),
        (vec![at_3(2), lost(), doze(index([99_998, 1, 1], &[], &[]), 1), lost()], (4, 5)),
        // Behind a tune-in the tests are as ever.
        (vec![at_3(2), lost(), at_3(2), refused(index([4, 3, 1], &[], &[]), 9)], (3, 4)),
        // "A misprinted one still gives 8", before a loss and behind it.
        (vec![at_3(2), refused("5".into(), 8), lost_late()], (1, 1)),
        (vec![at_3(2), lost(), refused("5".into(), 8), lost_late()], (2, 3)),
        // The starts passed before a loss are not counted behind it.
        (vec![at_3(4), doze(index([0, 7, 1], &[], &[(5, 6)]), 6), lost()], (3, 11)),
        (vec![at_3(4), refused(round(), 10), lost_late()], (1, 1)),
        (vec![at_3(4), lost(), at_3(4), refused(round(), 10), lost_late()], (3, 6)),
        // The data bucket behind a follow-on is lost: its tag is heard anew.
        (
            vec![
                doze(index([3, 9, 2], &[], &[]), 2),
                doze(index([5, 7, 1], &[], &[(5, 1)]), 1),
                doze(data([6, 6, 1], 2, 5), 2),
                lost(),
                doze(index([9, 3, 3], &[], &[]), 3),
                doze(index([0, 12, 4], &[], &[(5, 3)]), 3),
                (Some(data([3, 9, 1], 0, 5)), Answer::Found),
                lost_late(),
            ],
            (7, 13),
        ),
    ]
}

/// Gives listeners what was written out for them.
pub fn hear_ways<H: Hears>(start: impl Fn(u64) -> H) {
    for (way, counts) in ways() {
        let mut listener = start(5);
        for (bucket, wanted) in &way {
            let (answer, ..) = listener.give(bucket.as_ref().map(|bucket| bucket.as_bytes()));
            assert_eq!(answer, *wanted, "{way:#?}");
        }
        assert_eq!(listener.counts(), counts, "{way:#?}");
    }
}

/// "A count that would pass 4,294,967,295 stops there."
const COUNT_MOST: u64 = 4_294_967_295;

/// Counts near the stop and beyond it.
fn near_stop(random: &mut Random) -> u64 {
    let less = random.below(30);
    random.pick(&[
        COUNT_MOST - less,
        COUNT_MOST - less,
        COUNT_MOST + less,
        1 << 32,
        1 << 63,
        u64::MAX - less % 3,
    ])
}

/// A count and so many more.
pub fn stopped(count: u64, more: u64) -> u64 {
    count.saturating_add(more).min(COUNT_MOST)
}

/// Listeners started with counts near the stop, over damaged images: "no answer
/// other than the counts" differs from those of a listener that starts with 0.
pub fn hear_near_stop<H: Hears>(start: impl Fn(u64, u64, u64) -> H) {
    let random = &mut Random::new(8);
    // Steps with a count that stopped, those without a loss and with one; refusals.
    let (mut stops, mut refused) = ([0; 2], [0; 15]);
    for _ in 0..6_000 {
        let image = damaged_cycle(random, 16, 3);
        let (tag, heard, elapsed) = (random.below(20), near_stop(random), near_stop(random));
        let (mut plain, mut near) = (start(tag, 0, 0), start(tag, heard, elapsed));
        wander(random, &image, |bucket| {
            let answer = plain.give(bucket);
            assert_eq!(near.give(bucket), answer);
            let (more_heard, more_elapsed) = plain.counts();
            let counts = match more_heard {
                0 => (heard, elapsed),
                _ => (stopped(heard, more_heard), stopped(elapsed, more_elapsed)),
            };
            assert_eq!(near.counts(), counts);
            match answer.0 {
                Answer::Refused(number) => refused[number as usize] += 1,
                _ => stops[bucket.is_none() as usize] += (counts.0 == COUNT_MOST) as u64,
            }
            answer.0
        });
    }
    assert!(stops.iter().all(|&times| times > 100), "{stops:?}");
    assert!([8, 9, 10, 14].iter().all(|&number| refused[number] > 20), "{refused:?}");
}
