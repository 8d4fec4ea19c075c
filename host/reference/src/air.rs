//! Cycles on air one after the other, each of a list and settings of its own,
//! and what document 02, C-12 and C-16, says of a hearing over them; for tests.

pub mod losses;

use std::fmt::Arguments;

use crate::generate::{list_from, list_of, Random};
use crate::literal::{self, Line};
use crate::yards::{image_of, legal_copies, legal_settings, levels, tags_around, Settings};
use crate::{Answer, Listener};

/// A listener that is given bucket after bucket.
pub trait Hears {
    /// The answer, and which lines match: the first, and how many.
    fn hear(&mut self, bucket: &[u8]) -> (Answer, u64, u64);
    /// The same of a bucket that is lost.
    fn lose(&mut self) -> (Answer, u64, u64);
    /// Heard and elapsed.
    fn counts(&self) -> (u64, u64);

    /// A bucket, or None for one that is lost.
    fn give(&mut self, bucket: Option<&[u8]>) -> (Answer, u64, u64) {
        match bucket {
            Some(bucket) => self.hear(bucket),
            None => self.lose(),
        }
    }
}

impl Hears for Listener {
    fn hear(&mut self, bucket: &[u8]) -> (Answer, u64, u64) {
        let (next, answer, first, count) = self.step(bucket);
        *self = next;
        (answer, first, count)
    }

    fn lose(&mut self) -> (Answer, u64, u64) {
        let (next, answer, first, count) = self.lost();
        *self = next;
        (answer, first, count)
    }

    fn counts(&self) -> (u64, u64) {
        (self.heard(), self.elapsed())
    }
}

/// One cycle on air.
pub struct Sending {
    list: Vec<u8>,
    lines: Vec<Line>,
    settings: Settings,
    image: Vec<u8>,
}

impl Sending {
    /// The cycle of a valid list.
    pub fn new(list: Vec<u8>, settings: Settings) -> Sending {
        let lines = literal::parse_list(&list).unwrap();
        let image = image_of(&list, settings);
        Sending { list, lines, settings, image }
    }

    /// N
    pub fn buckets(&self) -> u64 {
        (self.image.len() / 240) as u64
    }

    /// The list's number of lines.
    pub fn lines(&self) -> u64 {
        self.lines.len() as u64
    }

    /// The list's lines of a tag.
    fn lines_of(&self, tag: u64) -> Vec<Line> {
        self.lines.iter().filter(|line| line[0] == tag).copied().collect()
    }

    /// 2 + k + max(1, C): "cut it from the front into runs of p lines; C is how
    /// many of them hold a line of the tag".
    fn heard_limit(&self, tag: u64) -> u64 {
        let [n, p, ..] = self.settings;
        let (k, _) = levels(self.lines(), n, p);
        let runs = self.lines.chunks(p as usize);
        let c = runs.filter(|run| run.iter().any(|line| line[0] == tag)).count() as u64;
        2 + k + c.max(1)
    }
}

/// How a hearing ended.
pub struct Heard {
    /// The cycle in which it ended, that of the first bucket being 0.
    pub cycle: usize,
    pub found: bool,
    pub heard: u64,
    pub elapsed: u64,
    pub lines: u64,
    /// The limits on heard and elapsed since the last tune-in were reached.
    pub at_limit: [bool; 2],
    /// q, the buckets lost.
    pub lost: u64,
    /// Lines handed over before a bucket was lost.
    pub void: u64,
}

/// A bucket that a listener is given, and the counts with it.
#[derive(Clone, Copy)]
struct Place {
    cycle: usize,
    position: u64,
    heard: u64,
    elapsed: u64,
}

impl Place {
    /// The bucket so many places on.
    fn go(&mut self, air: &[&Sending], distance: u64) {
        self.heard += 1;
        self.elapsed += distance;
        self.position += distance;
        while self.position >= sent(air, self.cycle).buckets() {
            self.position -= sent(air, self.cycle).buckets();
            self.cycle += 1;
        }
    }

    fn bucket<'a>(&self, air: &[&'a Sending]) -> &'a [u8] {
        &sent(air, self.cycle).image[240 * self.position as usize..][..240]
    }
}

/// A cycle on air; behind the last one the first comes again.
fn sent<'a>(air: &[&'a Sending], cycle: usize) -> &'a Sending {
    air[cycle % air.len()]
}

/// A hearing from a tune-in bucket of the first cycle to its end, held against
/// C-12.
pub fn hearing(air: &[&Sending], tag: u64, tune_in: u64, listener: &mut impl Hears) -> Heard {
    hearing_with(air, tag, tune_in, 0, listener)
}

/// The same with lost buckets: bit i of the marks is set where the bucket given
/// behind i others is lost. "The listener answers doze by 1, and the display then
/// starts over with the next bucket as its tune-in, both counts running on from the
/// first, and lines handed over earlier in the lookup are void" (C-16).
fn hearing_with(
    air: &[&Sending],
    tag: u64,
    tune_in: u64,
    marks: u128,
    listener: &mut impl Hears,
) -> Heard {
    let told = format_args!("tag {tag}, tune-in {tune_in}, marks {marks:b}");
    let mut place = Place { cycle: 0, position: tune_in, heard: 1, elapsed: 1 };
    let (mut tuned, mut lines) = (place, Vec::new());
    let (mut lost, mut void) = (0, 0);
    let found = loop {
        let bucket = place.bucket(air);
        let is_lost = place.heard <= 128 && marks >> (place.heard - 1) & 1 == 1;
        let (answer, first, count) = listener.give((!is_lost).then_some(bucket));
        assert_eq!(listener.counts(), (place.heard, place.elapsed), "{told}");
        if is_lost {
            assert_eq!((answer, first, count), (Answer::Doze(1), 0, 0), "{told}");
        }
        for i in first..first + count {
            lines.push(literal::figures(&bucket[29 + 26 * i as usize..][..26]).unwrap());
        }
        match answer {
            Answer::Doze(distance) => place.go(air, distance),
            Answer::Found => break true,
            Answer::Absent => break false,
            Answer::Refused(number) => panic!("refused by {number}: {told}"),
        }
        if is_lost {
            lost += 1;
            void += lines.len() as u64;
            lines.clear();
            tuned = place;
        }
    };
    let at_limit = ends_well(air, tag, [tuned, place], (found, &lines), told);
    // After the end any bytes, and a lost bucket, are refused by 14 and change nothing.
    for given in [Some(&air[0].image[..240]), Some(b""), Some(b"any"), None] {
        assert_eq!(listener.give(given), (Answer::Refused(14), 0, 0), "{told}");
        assert_eq!(listener.counts(), (place.heard, place.elapsed), "{told}");
    }
    let Place { cycle, heard, elapsed, .. } = place;
    Heard { cycle, found, heard, elapsed, lines: lines.len() as u64, at_limit, lost, void }
}

/// From its last tune-in on a hearing is as C-12 says: the lines or the absence
/// "are those of the list in whose cycle it ends", "k and C in the heard limit are
/// those of the cycle it ends in", "the time limit becomes N - t buckets of the old
/// cycle and all of the new one". Whether the two limits were reached.
fn ends_well(
    air: &[&Sending],
    tag: u64,
    [tuned, end]: [Place; 2],
    ended: (bool, &Vec<Line>),
    told: Arguments,
) -> [bool; 2] {
    assert!(end.cycle <= tuned.cycle + 1, "ended in cycle {}: {told}", end.cycle);
    let wanted = sent(air, end.cycle).lines_of(tag);
    assert_eq!(ended, (!wanted.is_empty(), &wanted), "{told}");
    let (old, new) = (sent(air, tuned.cycle), sent(air, tuned.cycle + 1));
    let heard = [end.heard - tuned.heard + 1, sent(air, end.cycle).heard_limit(tag)];
    let elapsed = [end.elapsed - tuned.elapsed + 1, old.buckets() - tuned.position + new.buckets()];
    [heard, elapsed].map(|[count, limit]| {
        assert!(count <= limit, "{count} of {limit}: {told}");
        count == limit
    })
}

/// Every tag around the lists of these cycles.
fn tags_of(air: &[&Sending]) -> Vec<u64> {
    let mut tags: Vec<u64> = air.iter().flat_map(|sent| tags_around(&sent.list)).collect();
    tags.sort();
    tags.dedup();
    tags
}

/// How often hearings ended in each of the two cycles.
#[derive(Debug, Default)]
struct Ends {
    found: [u64; 2],
    absent: [u64; 2],
    /// With as many buckets heard as the limit allows.
    at_heard_limit: [u64; 2],
    at_elapsed_limit: [u64; 2],
}

impl Ends {
    /// Every tag around the lists of the first two cycles, from every tune-in.
    fn hear<H: Hears>(&mut self, air: &[&Sending], start: &impl Fn(u64) -> H) {
        for tag in tags_of(&air[..2]) {
            for tune_in in 0..air[0].buckets() {
                let end = hearing(air, tag, tune_in, &mut start(tag));
                let ends = if end.found { &mut self.found } else { &mut self.absent };
                ends[end.cycle] += 1;
                self.at_heard_limit[end.cycle] += end.at_limit[0] as u64;
                self.at_elapsed_limit[end.cycle] += end.at_limit[1] as u64;
            }
        }
    }

    /// Both ends come in both cycles and so does the limit on heard; that on
    /// elapsed is the new cycle's last bucket.
    fn check(&self) {
        let Ends { found, absent, at_heard_limit, at_elapsed_limit } = self;
        let often = |ends: &[u64; 2]| ends.iter().all(|&times| times > 100);
        assert!(often(found) && often(absent) && often(at_heard_limit), "{self:?}");
        assert!(at_elapsed_limit[0] == 0 && at_elapsed_limit[1] > 100, "{self:?}");
    }
}

/// Hearings over lists and settings that change from cycle to cycle.
pub fn hear_changing<H: Hears>(start: impl Fn(u64) -> H) {
    any_lists(400, &start).check();
    short_lists(&start).check();
}

/// Lists from a seed, empty ones among them.
fn any_lists<H: Hears>(rounds: u64, start: &impl Fn(u64) -> H) -> Ends {
    let random = &mut Random::new(5);
    let mut ends = Ends::default();
    let mut kinds = [0; 4];
    for _ in 0..rounds {
        let air: [Sending; 3] = std::array::from_fn(|_| any_sending(random));
        for sent in &air[..2] {
            kinds[sent.settings[2] as usize] += 1;
            kinds[0] += sent.list.is_empty() as u64;
            kinds[3] += (sent.buckets() == 1) as u64;
        }
        ends.hear(&air.each_ref(), start);
    }
    assert!(kinds.iter().all(|&times| times > rounds / 20), "{kinds:?}");
    ends
}

/// The cycle of a list from a seed.
fn any_sending(random: &mut Random) -> Sending {
    let lines = random.below(20).saturating_sub(2);
    let (first, spread) = (random.below(4), random.below(3));
    let list = list_from(random, lines, first, spread);
    let settings = any_settings(random, lines);
    Sending::new(list, settings)
}

/// Legal settings for so many lines; half of the trees are as deep as they can be.
pub fn any_settings(random: &mut Random, lines: u64) -> Settings {
    match random.below(2) {
        0 => random.pick(&legal_copies(lines, 2, 1)),
        _ => legal_settings(random, lines),
    }
}

/// Every list of up to three lines with tags 1 to 3, and one with three index
/// levels, in each of their cycles with n 2 and p 1.
fn short_sendings() -> Vec<Sending> {
    let mut lists = vec![vec![1, 1, 2, 2, 3]];
    for lines in 0..=3 {
        let code = 0..3u64.pow(lines);
        let tags = code.map(|code| (0..lines).map(|i| 1 + code / 3u64.pow(i) % 3).collect());
        lists.extend(tags.filter(|tags: &Vec<u64>| tags.is_sorted()));
    }
    let mut sendings = Vec::new();
    for tags in lists {
        let copies = legal_copies(tags.len() as u64, 2, 1).into_iter();
        sendings.extend(copies.map(|settings| Sending::new(list_of(&tags), settings)));
    }
    sendings
}

/// Every two of these.
fn short_lists<H: Hears>(start: &impl Fn(u64) -> H) -> Ends {
    let sendings = short_sendings();
    let mut ends = Ends::default();
    for old in &sendings {
        for new in &sendings {
            ends.hear(&[old, new, old], start);
        }
    }
    ends
}

/// A bucket's position, distance to the next cycle and to the next segment.
type Head = [u64; 3];

/// An index bucket; a pair's tag may be blank.
pub fn index(head: Head, pairs: &[(Option<u64>, u64)], entries: &[(u64, u64)]) -> String {
    let mut text = head_text(head, 0, 'I', pairs.len(), entries.len());
    for (tag, distance) in pairs {
        let tag = tag.map_or(String::new(), |tag| tag.to_string());
        text += &format!("{tag:>10}{distance:>6}");
    }
    text = format!("{text:<93}");
    for (tag, distance) in entries {
        text += &format!("{tag:>10}{distance:>6}");
    }
    format!("{text:<239}\n")
}

/// A data bucket with one line.
fn data(head: Head, follow_on: u64, tag: u64) -> String {
    let line = format!("{tag:>10}{:>6}{:>4}{:>6}", 1, 2, 3);
    format!("{:<239}\n", head_text(head, follow_on, 'D', 0, 1) + &line)
}

fn head_text([a, b, c]: Head, follow_on: u64, letter: char, pairs: usize, count: usize) -> String {
    format!("{a:>6}{b:>6}{c:>6}{follow_on:>6}{letter}{pairs:>2}{count:>2}")
}

/// Buckets at the bounds of 8, 9 and 10: what a listener for tag 5 is given, and
/// its answers.
pub fn bounds() -> Vec<(Vec<String>, Vec<Answer>)> {
    let mut cases = distances();
    cases.extend(awaited());
    cases.extend(starts());
    cases
}

/// 8: each distance of a bucket that is 4 before the next cycle, N being 7.
fn distances() -> Vec<(Vec<String>, Vec<Answer>)> {
    let mut cases = Vec::new();
    for distance in [0, 1, 3, 4, 5, 7, 8, 99_999] {
        let fits = (1..=4).contains(&distance);
        let doze = |doze| if fits { Answer::Doze(doze) } else { Answer::Refused(8) };
        let blank = (None, 4);
        for (bucket, doze) in [
            (index([3, 4, distance], &[], &[]), doze(distance)),
            (data([3, 4, distance], 0, 5), doze(distance)),
            (index([3, 4, 2], &[(None, distance)], &[]), doze(2)),
            (index([3, 4, 2], &[blank, (Some(9), distance)], &[]), doze(2)),
            (index([3, 4, 2], &[], &[(5, distance)]), doze(2)),
            (index([3, 4, 2], &[blank], &[(5, 1), (9, distance)]), doze(2)),
        ] {
            cases.push((vec![bucket], vec![doze]));
        }
    }
    cases
}

/// 9: what comes after a doze within a cycle, and to the next cycle's start.
fn awaited() -> Vec<(Vec<String>, Vec<Answer>)> {
    let mut cases = Vec::new();
    let plain = |position, to_cycle| index([position, to_cycle, 1], &[], &[(5, 1)]);
    // Position 5 and N 7 are due behind the pointer, a pair and an entry.
    let at_1 = index([1, 6, 1], &[], &[]);
    for (way, dozes) in [
        (vec![index([3, 4, 2], &[], &[])], vec![2]),
        (vec![at_1.clone(), index([2, 5, 1], &[(Some(5), 3)], &[])], vec![1, 3]),
        (vec![at_1, index([2, 5, 1], &[], &[(5, 3)])], vec![1, 3]),
    ] {
        for (position, to_cycle, last) in [
            (5, 2, Answer::Doze(1)),
            (5, 1, Answer::Refused(9)),
            (5, 3, Answer::Refused(9)),
            (4, 3, Answer::Refused(9)),
            (0, 7, Answer::Refused(9)),
        ] {
            cases.push(case(&way, &dozes, plain(position, to_cycle), last));
        }
    }
    // N is tested behind a follow-on too.
    let way = [index([3, 9, 2], &[], &[]), index([5, 7, 1], &[], &[(5, 1)]), data([6, 6, 1], 2, 5)];
    for (head, last) in [([8, 4, 1], Answer::Found), ([8, 5, 1], Answer::Refused(9))] {
        cases.push(case(&way, &[2, 1, 2], data(head, 0, 5), last));
    }
    // Position 0 is due, and any N.
    let to_start = [index([3, 4, 4], &[], &[])];
    for (position, to_cycle, last) in [
        (0, 7, Answer::Doze(1)),
        (0, 2, Answer::Doze(1)),
        (0, 99_999, Answer::Doze(1)),
        (1, 6, Answer::Refused(9)),
        (3, 4, Answer::Refused(9)),
    ] {
        cases.push(case(&to_start, &[4], plain(position, to_cycle), last));
    }
    cases.push(case(&to_start, &[4], data([0, 7, 1], 0, 5), Answer::Refused(9)));
    // Past the start the new N is due.
    let way = [to_start[0].clone(), plain(0, 9)];
    for (to_cycle, last) in [(8, Answer::Doze(1)), (6, Answer::Refused(9))] {
        cases.push(case(&way, &[4, 1], plain(1, to_cycle), last));
    }
    cases
}

/// 10: a doze to the first start since tune-in, and to the second.
fn starts() -> Vec<(Vec<String>, Vec<Answer>)> {
    let mut cases = Vec::new();
    // The first start is reached by the pointer, a pair or an entry.
    let at_3 = |to_segment| index([3, 4, to_segment], &[], &[]);
    for (way, dozes) in [
        (vec![at_3(4)], vec![4]),
        (vec![at_3(2), index([5, 2, 1], &[(Some(5), 2)], &[])], vec![2, 2]),
        (vec![at_3(2), index([5, 2, 1], &[], &[(5, 2)])], vec![2, 2]),
    ] {
        for n in [2, 7, 9] {
            for (bucket, last) in [
                (index([0, n, n], &[], &[(5, n)]), Answer::Refused(10)),
                (index([0, n, n], &[(Some(5), n)], &[]), Answer::Refused(10)),
                (index([0, n, n], &[(None, n), (Some(4), n)], &[]), Answer::Refused(10)),
                (index([0, n, n], &[], &[(5, n - 1)]), Answer::Doze(n - 1)),
                (index([0, n, n], &[], &[(4, n)]), Answer::Absent),
            ] {
                cases.push(case(&way, &dozes, bucket, last));
            }
            // At the new cycle's last bucket the end still comes.
            let way = [&way[..], &[index([0, n, n], &[], &[(5, n - 1)])]].concat();
            let dozes = [&dozes[..], &[n - 1]].concat();
            cases.push(case(&way, &dozes, data([n - 1, 1, 1], 0, 5), Answer::Found));
            let round = index([n - 1, 1, 1], &[], &[(5, 1)]);
            cases.push(case(&way, &dozes, round, Answer::Refused(10)));
        }
    }
    cases
}

/// Buckets from which the listener dozes, and the last one with its answer.
fn case(way: &[String], dozes: &[u64], last: String, answer: Answer) -> (Vec<String>, Vec<Answer>) {
    let mut answers: Vec<Answer> = dozes.iter().map(|&doze| Answer::Doze(doze)).collect();
    answers.push(answer);
    ([way, &[last]].concat(), answers)
}

/// Gives listeners the buckets at the bounds.
pub fn hear_bounds<H: Hears>(start: impl Fn(u64) -> H) {
    let mut refused = [0; 11];
    for (buckets, answers) in bounds() {
        let mut listener = start(5);
        for (bucket, &wanted) in buckets.iter().zip(&answers) {
            assert_eq!(listener.hear(bucket.as_bytes()).0, wanted, "{buckets:#?}");
            if let Answer::Refused(number) = wanted {
                refused[number as usize] += 1;
            }
        }
    }
    assert!(refused[8..].iter().all(|&times| times >= 10), "{refused:?}");
}
