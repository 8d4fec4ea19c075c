//! The paper once more, word for word and slow: only for tests, to hold the
//! fast version against.

use std::collections::BTreeSet;

use crate::{Answer, Changed, Mean, Refusal, Settings, Size};

const TAG_RANGE: std::ops::RangeInclusive<u64> = 0..=4_294_967_295;

/// A list line's four numbers: tag, tare, material code, weighing number.
pub type Line = [u64; 4];

/// The number that these columns print, if they print one.
pub fn number(columns: &[u8]) -> Option<u64> {
    let number = list_number(columns)?;
    (columns == format!("{number:>0$}", columns.len()).as_bytes()).then_some(number)
}

/// The number in these columns of a list line: "accepts leading zeros, blanks
/// before them or none" (C-13).
pub fn list_number(columns: &[u8]) -> Option<u64> {
    let digits = std::str::from_utf8(columns).ok()?.trim_start_matches(' ');
    if !digits.chars().all(|digit| digit.is_ascii_digit()) {
        return None;
    }
    digits.parse().ok()
}

/// Where the four numbers of a line stand, and their ranges.
const FIGURES: [(std::ops::Range<usize>, std::ops::RangeInclusive<u64>); 4] =
    [(0..10, TAG_RANGE), (10..16, 0..=99_999), (16..20, 0..=9_999), (20..26, 0..=999_999)];

/// The four numbers of a bucket's line, if each is in its range.
pub fn figures(columns: &[u8]) -> Option<Line> {
    line(columns, number)
}

/// The four numbers of a list line without its newline, likewise.
pub fn list_figures(columns: &[u8]) -> Option<Line> {
    line(columns, list_number)
}

fn line(columns: &[u8], number: fn(&[u8]) -> Option<u64>) -> Option<Line> {
    let mut line = [0; 4];
    for (figure, (place, range)) in line.iter_mut().zip(FIGURES) {
        *figure = number(&columns[place]).filter(|number| range.contains(number))?;
    }
    Some(line)
}

/// "The list with its leading zeros made blank (zero stays one 0)": each number
/// of a list line is printed anew, and what is none stays.
pub fn blanked(list: &[u8]) -> Vec<u8> {
    let mut blanked = list.to_vec();
    if list.len().is_multiple_of(27) {
        for line in blanked.chunks_mut(27) {
            for (place, _) in FIGURES {
                blank_zeros(&mut line[place]);
            }
        }
    }
    blanked
}

/// One field of that. A number over its range has no leading zero.
pub fn blank_zeros(columns: &mut [u8]) {
    if let Some(number) = list_number(columns) {
        let printed = format!("{number:>0$}", columns.len());
        columns.copy_from_slice(printed.as_bytes());
    }
}

fn print_figures(line: &Line) -> String {
    format!("{:>10}{:>6}{:>4}{:>6}", line[0], line[1], line[2], line[3])
}

/// A list as numbers, or the refusal 2, 3 or 4.
pub fn parse_list(list: &[u8]) -> Result<Vec<Line>, Refusal> {
    if !list.len().is_multiple_of(27) || list.len() / 27 > 40_000 {
        return Err(Refusal { number: 2, place: 0 });
    }
    let mut lines = Vec::new();
    for (place, line) in (0..).zip(list.chunks(27)) {
        match list_figures(&line[..26]) {
            Some(figures) if line[26] == b'\n' => lines.push(figures),
            _ => return Err(Refusal { number: 3, place }),
        }
    }
    for i in 1..lines.len() {
        if lines[i][0] < lines[i - 1][0] {
            return Err(Refusal { number: 4, place: i as u64 });
        }
    }
    Ok(lines)
}

/// An index bucket: its children on the level below, and all data under it.
struct Node {
    children: Vec<usize>,
    data: Vec<usize>,
}

/// "Each index level groups the level below by n from the left, until one
/// root." The root's level comes first.
fn grow(data: usize, n: usize) -> Vec<Vec<Node>> {
    if data == 0 {
        return vec![vec![Node { children: vec![], data: vec![] }]];
    }
    let mut below: Vec<Vec<usize>> = (0..data).map(|d| vec![d]).collect();
    let mut levels = Vec::new();
    loop {
        let mut level = Vec::new();
        let numbers: Vec<usize> = (0..below.len()).collect();
        for group in numbers.chunks(n) {
            let under = group.iter().flat_map(|&child| below[child].clone()).collect();
            level.push(Node { children: group.to_vec(), data: under });
        }
        below = level.iter().map(|node| node.data.clone()).collect();
        levels.insert(0, level);
        if below.len() == 1 {
            return levels;
        }
    }
}

/// What one place of a cycle sends.
#[derive(Clone, Copy, PartialEq)]
enum Sent {
    /// Level, from 1, and number on that level.
    Index(usize, usize),
    Data(usize),
}

struct Slot {
    sent: Sent,
    starts_segment: bool,
    /// A path bucket of layout 1.
    in_path: bool,
}

/// A tree, its data buckets and the order in which they are sent.
pub struct Cycle {
    data: Vec<Vec<Line>>,
    levels: Vec<Vec<Node>>,
    layout: u64,
    slots: Vec<Slot>,
}

impl Cycle {
    /// Settings in range; refuses by 5 and 6.
    pub fn new(lines: &[Line], n: u64, p: u64, layout: u64, copies: u64) -> Result<Cycle, u64> {
        let data: Vec<Vec<Line>> = lines.chunks(p as usize).map(|c| c.to_vec()).collect();
        let levels = grow(data.len(), n as usize);
        let k = levels.len() as u64;
        let range = match layout {
            1 => 0..=4.min(k - 1),
            _ => 1..=1.max(data.len() as u64),
        };
        if !range.contains(&copies) {
            return Err(5);
        }
        let mut cycle = Cycle { data, levels, layout, slots: Vec::new() };
        match layout {
            1 => cycle.send_distributed(copies as usize),
            _ => cycle.send_one_m(copies as usize),
        }
        if cycle.slots.len() > 99_999 {
            return Err(6);
        }
        Ok(cycle)
    }

    /// k
    pub fn levels(&self) -> u64 {
        self.levels.len() as u64
    }

    /// N
    pub fn buckets(&self) -> u64 {
        self.slots.len() as u64
    }

    fn send(&mut self, sent: Sent, in_path: bool) {
        let after_index = matches!(self.slots.last(), Some(Slot { sent: Sent::Index(..), .. }));
        let starts_segment = matches!(sent, Sent::Index(..)) && !after_index;
        self.slots.push(Slot { sent, starts_segment, in_path });
    }

    fn send_tree(&mut self, level: usize, index: usize) {
        self.send(Sent::Index(level, index), false);
        if level < self.levels.len() {
            for child in self.levels[level - 1][index].children.clone() {
                self.send_tree(level + 1, child);
            }
        }
    }

    /// The buckets above bucket `index` of `level`, from the root, without it.
    fn above(&self, level: usize, index: usize) -> Vec<usize> {
        let mut above = Vec::new();
        let mut child = index;
        for upper in (1..level).rev() {
            let nodes = &self.levels[upper - 1];
            child = nodes.iter().position(|node| node.children.contains(&child)).unwrap();
            above.insert(0, child);
        }
        above
    }

    fn send_distributed(&mut self, r: usize) {
        for b in 0..self.levels[r].len() {
            let path = self.above(r + 1, b);
            let mut from = 0;
            if b > 0 {
                let before = self.above(r + 1, b - 1);
                from = (0..r).rev().find(|&i| path[i] == before[i]).unwrap();
            }
            for (level, &index) in (1..).zip(&path).skip(from) {
                self.send(Sent::Index(level, index), true);
            }
            self.send_tree(r + 1, b);
            for d in self.levels[r][b].data.clone() {
                self.send(Sent::Data(d), false);
            }
        }
    }

    fn send_one_m(&mut self, m: usize) {
        for i in 0..m {
            self.send_tree(1, 0);
            for d in i * self.data.len() / m..(i + 1) * self.data.len() / m {
                self.send(Sent::Data(d), false);
            }
        }
    }

    /// The distance from a place to the next one of this cycle that fits, or to
    /// the next cycle's start if there is none.
    fn next(&self, place: usize, fits: impl Fn(&Slot) -> bool) -> usize {
        let later = (place + 1..self.slots.len()).find(|&later| fits(&self.slots[later]));
        later.unwrap_or(self.slots.len()) - place
    }

    fn to_next(&self, place: usize, sent: Sent) -> usize {
        self.next(place, |slot| slot.sent == sent)
    }

    fn largest_tag(&self, sent: Sent) -> u64 {
        let under = match sent {
            Sent::Index(level, index) => self.levels[level - 1][index].data.clone(),
            Sent::Data(d) => vec![d],
        };
        under.iter().flat_map(|&d| &self.data[d]).map(|line| line[0]).max().unwrap()
    }

    fn control_pairs(&self, place: usize) -> Vec<(String, usize)> {
        let slot = &self.slots[place];
        let Sent::Index(level, index) = slot.sent else {
            return vec![];
        };
        let root = self.layout == 2 && level == 1;
        if !slot.in_path && !root {
            return vec![];
        }
        let mut last = String::new();
        for earlier in &self.slots[..place] {
            if let Sent::Data(d) = earlier.sent {
                last = self.data[d].last().unwrap()[0].to_string();
            }
        }
        let mut pairs = vec![(last, self.slots.len() - place)];
        let mut path = self.above(level, index);
        path.push(index);
        for j in 2..=level {
            let tag = self.largest_tag(Sent::Index(j, path[j - 1]));
            let distance = self.to_next(place, Sent::Index(j - 1, path[j - 2]));
            pairs.push((tag.to_string(), distance));
        }
        pairs
    }

    fn follow_on(&self, place: usize, d: usize) -> usize {
        let last = self.data[d].last().unwrap()[0];
        for later in place + 1..self.slots.len() {
            if let Sent::Data(next) = self.slots[later].sent {
                return if self.data[next][0][0] == last { later - place } else { 0 };
            }
        }
        0
    }

    /// The bucket at a place, printed.
    pub fn bucket(&self, place: usize) -> String {
        let slot = &self.slots[place];
        let to_segment = self.next(place, |slot| slot.starts_segment);
        let mut text = format!("{place:>6}{:>6}{to_segment:>6}", self.slots.len() - place);
        match slot.sent {
            Sent::Index(level, index) => {
                let pairs = self.control_pairs(place);
                let children = &self.levels[level - 1][index].children;
                text += &format!("{:>6}I{:>2}{:>2}", 0, pairs.len(), children.len());
                for (tag, distance) in pairs {
                    text += &format!("{tag:>10}{distance:>6}");
                }
                text = format!("{text:<93}");
                for &child in children {
                    let below = match level == self.levels.len() {
                        true => Sent::Data(child),
                        false => Sent::Index(level + 1, child),
                    };
                    let (tag, distance) = (self.largest_tag(below), self.to_next(place, below));
                    text += &format!("{tag:>10}{distance:>6}");
                }
            }
            Sent::Data(d) => {
                let lines = &self.data[d];
                text += &format!("{:>6}D{:>2}{:>2}", self.follow_on(place, d), 0, lines.len());
                text.extend(lines.iter().map(print_figures));
            }
        }
        format!("{text:<239}\n")
    }

    /// The whole cycle, printed.
    pub fn image(&self) -> Vec<u8> {
        (0..self.slots.len()).flat_map(|place| self.bucket(place).into_bytes()).collect()
    }
}

fn check_settings(n: u64, p: u64, layout: u64) -> Result<(), Refusal> {
    match (n, p, layout) {
        (2..=8, 1..=8, 1..=2) => Ok(()),
        _ => Err(Refusal { number: 1, place: 0 }),
    }
}

/// Building into a buffer of `room` bytes; the image, or the refusal.
pub fn build(
    list: &[u8],
    n: u64,
    p: u64,
    layout: u64,
    copies: u64,
    room: usize,
) -> Result<Vec<u8>, Refusal> {
    check_settings(n, p, layout)?;
    let lines = parse_list(list)?;
    let refused = |number| Refusal { number, place: 0 };
    let cycle = Cycle::new(&lines, n, p, layout, copies).map_err(refused)?;
    if room < 240 * cycle.slots.len() {
        return Err(refused(7));
    }
    Ok(cycle.image())
}

/// The size of a cycle: that of the cycle of some list of so many lines.
pub fn size(lines: u64, n: u64, p: u64, layout: u64, copies: u64, c: u64) -> Result<Size, Refusal> {
    check_settings(n, p, layout)?;
    let refused = |number| Refusal { number, place: 0 };
    if lines > 40_000 {
        return Err(refused(2));
    }
    let lines = vec![[0; 4]; lines as usize];
    let cycle = Cycle::new(&lines, n, p, layout, copies).map_err(refused)?;
    let (k, d, n) = (cycle.levels(), cycle.data.len() as u64, cycle.buckets());
    let c = if c > d { d } else { c };
    Ok(Size { k, d, n, bytes: 240 * n, heard: 2 + k + 1.max(c) })
}

/// What a change makes: its counts, the list's buffer and the image.
pub type Change = (Changed, Vec<u8>, Vec<u8>);

/// "A new line goes, bytes as given, behind all lines of its tag", in a buffer
/// that holds so many lines.
pub fn arrive(
    buffer: &[u8],
    lines: u64,
    line: &[u8],
    settings: Settings,
    room: usize,
) -> Result<Change, Refusal> {
    let mut list = lent_list(buffer, lines, line, settings)?;
    if lines == 40_000 || (buffer.len() as u64) < 27 * (lines + 1) {
        return Err(Refusal { number: 16, place: 0 });
    }
    let tag = numbers(line)[0];
    let behind = list.iter().rposition(|other| numbers(other)[0] <= tag);
    list.insert(behind.map_or(0, |place| place + 1), line);
    changed(buffer, list.concat(), settings, room)
}

/// "A line taken out is the first whose four numbers equal those of the one
/// given", "the last line's 27 bytes become blank".
pub fn take_out(
    buffer: &[u8],
    lines: u64,
    line: &[u8],
    settings: Settings,
    room: usize,
) -> Result<Change, Refusal> {
    let mut list = lent_list(buffer, lines, line, settings)?;
    let place = list.iter().position(|other| numbers(other) == numbers(line));
    list.remove(place.ok_or(Refusal { number: 15, place: 0 })?);
    let (counts, mut buffer, image) = changed(buffer, list.concat(), settings, room)?;
    buffer[27 * list.len()..][..27].copy_from_slice(&[b' '; 27]);
    Ok((counts, buffer, image))
}

/// The lines of the list in a buffer, or 1 to 4 of settings, list and given line.
fn lent_list<'a>(
    buffer: &'a [u8],
    lines: u64,
    line: &[u8],
    [n, p, layout, _]: Settings,
) -> Result<Vec<&'a [u8]>, Refusal> {
    check_settings(n, p, layout)?;
    if lines > 40_000 || (buffer.len() as u64) < 27 * lines || line.len() != 27 {
        return Err(Refusal { number: 2, place: 0 });
    }
    let list = &buffer[..27 * lines as usize];
    // A list of one line, which is refused by 3 alone.
    let given = parse_list(line).map_err(|_| Refusal { number: 3, place: lines });
    if let Err(refusal) = parse_list(list) {
        return Err(if refusal.number == 3 { refusal } else { given.err().unwrap_or(refusal) });
    }
    given?;
    Ok(list.chunks(27).collect())
}

/// The four numbers of a line that is not misprinted.
fn numbers(line: &[u8]) -> Line {
    list_figures(&line[..26]).unwrap()
}

/// A changed list at the front of its buffer, and "what building the changed list
/// afresh gives".
fn changed(buffer: &[u8], list: Vec<u8>, s: Settings, room: usize) -> Result<Change, Refusal> {
    let image = build(&list, s[0], s[1], s[2], s[3], room)?;
    let lines = (list.len() / 27) as u64;
    let Size { k, d, n, .. } = size(lines, s[0], s[1], s[2], s[3], 0)?;
    let mut buffer = buffer.to_vec();
    buffer.splice(..list.len(), list);
    Ok((Changed { lines, d, k, n }, buffer, image))
}

/// Reading back into a buffer of `room` bytes. A list that builds the image can
/// only be the one in its data buckets, leading zeros aside, so that one is
/// tried; no leading zero is ever printed in a bucket.
pub fn read_back(
    image: &[u8],
    n: u64,
    p: u64,
    layout: u64,
    copies: u64,
    room: usize,
) -> Result<Vec<u8>, Refusal> {
    check_settings(n, p, layout)?;
    let refused = |number| Refusal { number, place: 0 };
    if image.is_empty() || !image.len().is_multiple_of(240) || image.len() / 240 > 99_999 {
        return Err(refused(11));
    }
    let mut list = Vec::new();
    for bucket in image.chunks(240).filter(|bucket| bucket[24] == b'D') {
        for i in 0..number(&bucket[27..29]).unwrap_or(0).min(8) as usize {
            list.extend(&bucket[29 + 26 * i..][..26]);
            list.push(b'\n');
        }
    }
    match build(&list, n, p, layout, copies, usize::MAX) {
        Ok(built) if built == image => {}
        _ => return Err(refused(13)),
    }
    if room < list.len() {
        return Err(refused(7));
    }
    Ok(list)
}

/// What a single bucket says; None if it is misprinted.
struct Bucket {
    position: u64,
    buckets: u64,
    to_segment: u64,
    follow_on: u64,
    letter: u8,
    pairs: Vec<(Option<u64>, u64)>,
    entries: Vec<(u64, u64)>,
    lines: Vec<Line>,
}

fn read_bucket(bytes: &[u8]) -> Option<Bucket> {
    if bytes.len() != 240 || bytes[239] != b'\n' {
        return None;
    }
    let position = number(&bytes[0..6])?;
    let to_cycle = number(&bytes[6..12])?;
    let to_segment = number(&bytes[12..18])?;
    let follow_on = number(&bytes[18..24])?;
    let letter = bytes[24];
    let pair_count = number(&bytes[25..27])? as usize;
    let count = number(&bytes[27..29])? as usize;
    let buckets = position + to_cycle;
    let mut distances = vec![to_cycle, to_segment];
    let (mut pairs, mut entries, mut lines) = (vec![], vec![], vec![]);
    let mut unused: Vec<u8> = vec![];
    match letter {
        b'I' => {
            if pair_count > 4 || count > 8 || follow_on != 0 {
                return None;
            }
            for i in 0..pair_count {
                let columns = &bytes[29 + 16 * i..][..16];
                let blank = i == 0 && columns[..10] == *b"          ";
                let tag = if blank { None } else { Some(number(&columns[..10])?) };
                pairs.push((tag, number(&columns[10..])?));
            }
            for i in 0..count {
                let columns = &bytes[93 + 16 * i..][..16];
                entries.push((number(&columns[..10])?, number(&columns[10..])?));
            }
            unused.extend(&bytes[29 + 16 * pair_count..93]);
            unused.extend(&bytes[93 + 16 * count..239]);
            distances.extend(pairs.iter().map(|pair| pair.1));
            distances.extend(entries.iter().map(|entry| entry.1));
        }
        b'D' => {
            if pair_count != 0 || !(1..=8).contains(&count) || follow_on >= to_cycle {
                return None;
            }
            for i in 0..count {
                lines.push(figures(&bytes[29 + 26 * i..][..26])?);
            }
            unused.extend(&bytes[29 + 26 * count..239]);
        }
        _ => return None,
    }
    let in_range = buckets <= 99_999
        && distances.iter().all(|d| (1..=to_cycle).contains(d))
        && pairs.iter().filter_map(|pair| pair.0).all(|tag| TAG_RANGE.contains(&tag))
        && entries.iter().all(|entry| TAG_RANGE.contains(&entry.0));
    let rising = entries.windows(2).all(|two| two[0].0 <= two[1].0)
        && lines.windows(2).all(|two| two[0][0] <= two[1][0]);
    let blank = unused.iter().all(|&byte| byte == b' ');
    (in_range && rising && blank).then_some(Bucket {
        position,
        buckets,
        to_segment,
        follow_on,
        letter,
        pairs,
        entries,
        lines,
    })
}

/// Where a count stops (C-16).
const COUNT_MOST: u128 = 4_294_967_295;

/// A listener that keeps all it has heard: the printed positions and N, the
/// dozes between, and which buckets were lost.
#[derive(Clone)]
pub struct Listener {
    tag: u64,
    /// Heard and elapsed before the first bucket.
    before: (u64, u64),
    /// Position, N and the doze after each bucket taken, None for one lost; then
    /// the letters awaited.
    given: Vec<Option<(u64, u64, u64)>>,
    awaited: &'static [u8],
    ended: bool,
}

impl Listener {
    pub fn new(tag: u64) -> Listener {
        Listener::with_counts(tag, 0, 0)
    }

    /// A listener that starts with these counts.
    pub fn with_counts(tag: u64, heard: u64, elapsed: u64) -> Listener {
        Listener { tag, before: (heard, elapsed), given: vec![], awaited: b"ID", ended: false }
    }

    /// "both counts running on from the first": all buckets, "a lost bucket
    /// counts as heard".
    pub fn heard(&self) -> u64 {
        counted(self.before.0, self.given.len() as u64)
    }

    pub fn elapsed(&self) -> u64 {
        // A lost bucket is followed by the next one.
        let dozes = self.given.iter().map(|bucket| bucket.map_or(1, |taken| taken.2)).collect();
        counted(self.before.1, gone_by(dozes))
    }

    /// The buckets taken since the last one lost: the first of them is the tune-in.
    fn taken(&self) -> Vec<(u64, u64, u64)> {
        let since = self.given.rsplit(|bucket| bucket.is_none()).next().unwrap();
        since.iter().map(|bucket| bucket.unwrap()).collect()
    }

    /// The answer to a lost bucket, which names no lines.
    pub fn lost(&mut self) -> (Answer, u64, u64) {
        if self.ended {
            return (Answer::Refused(14), 0, 0);
        }
        self.given.push(None);
        (Answer::Doze(1), 0, 0)
    }

    /// The answer, and which lines match.
    pub fn step(&mut self, bytes: &[u8]) -> (Answer, u64, u64) {
        if self.ended {
            return (Answer::Refused(14), 0, 0);
        }
        match self.hear(bytes) {
            Ok(answer) => answer,
            Err(number) => {
                self.ended = true;
                (Answer::Refused(number), 0, 0)
            }
        }
    }

    fn hear(&mut self, bytes: &[u8]) -> Result<(Answer, u64, u64), u64> {
        let bucket = read_bucket(bytes).ok_or(8u64)?;
        let mut taken = self.taken();
        if let Some(&(position, buckets, doze)) = taken.last() {
            let as_awaited = if position + doze < buckets {
                bucket.position == position + doze && bucket.buckets == buckets
            } else {
                bucket.position == 0
            };
            if !self.awaited.contains(&bucket.letter) || !as_awaited {
                return Err(9);
            }
        }
        let ours: Vec<usize> =
            (0..bucket.lines.len()).filter(|&i| bucket.lines[i][0] == self.tag).collect();
        let tune_in = taken.is_empty();
        let (answer, awaited): (Answer, &'static [u8]) = if tune_in {
            (Answer::Doze(bucket.to_segment), b"I")
        } else if bucket.letter == b'I' {
            self.choose(&bucket)
        } else if ours.is_empty() {
            (Answer::Absent, b"")
        } else if ours.last() == Some(&(bucket.lines.len() - 1)) && bucket.follow_on != 0 {
            (Answer::Doze(bucket.follow_on), b"D")
        } else {
            (Answer::Found, b"")
        };
        let doze = if let Answer::Doze(doze) = answer { doze } else { 0 };
        taken.push((bucket.position, bucket.buckets, doze));
        if doze > 0 {
            // The place of the next bucket, counted on from the start of tune-in's
            // cycle, and the end of the cycle after that one.
            let (position, old, _) = taken[0];
            let dozes = taken.iter().map(|bucket| bucket.2).collect();
            let place = position + gone_by(dozes) - 1 + doze;
            let within_old = place - doze < old;
            if !within_old && place >= old + bucket.buckets {
                return Err(10);
            }
        }
        self.given.push(taken.pop());
        self.awaited = awaited;
        self.ended = doze == 0;
        match ours.first() {
            Some(&first) if !tune_in => Ok((answer, first as u64, ours.len() as u64)),
            _ => Ok((answer, 0, 0)),
        }
    }

    fn choose(&self, bucket: &Bucket) -> (Answer, &'static [u8]) {
        for (i, &(tag, distance)) in bucket.pairs.iter().enumerate() {
            let follow = match tag {
                Some(tag) if i == 0 => self.tag <= tag,
                Some(tag) => tag < self.tag,
                None => false,
            };
            if follow {
                return (Answer::Doze(distance), b"I");
            }
        }
        for &(tag, distance) in &bucket.entries {
            if tag >= self.tag {
                return (Answer::Doze(distance), b"ID");
            }
        }
        (Answer::Absent, b"")
    }
}

/// The buckets from the first to the last, both in, by the doze after each.
fn gone_by(dozes: Vec<u64>) -> u64 {
    match dozes.split_last() {
        None => 0,
        Some((_, earlier)) => 1 + earlier.iter().sum::<u64>(),
    }
}

/// A count with so many more: "a count that would pass 4,294,967,295 stops there".
fn counted(before: u64, more: u64) -> u64 {
    match more {
        0 => before,
        _ => (before as u128 + more as u128).min(COUNT_MOST) as u64,
    }
}

/// A lookup into a buffer of `room` bytes: found, heard, elapsed, the list lines.
pub fn lookup(
    image: &[u8],
    tag: u64,
    tune_in: u64,
    room: usize,
) -> Result<(bool, u64, u64, Vec<u8>), Refusal> {
    let refused = |number| Refusal { number, place: 0 };
    if image.is_empty() || !image.len().is_multiple_of(240) || image.len() / 240 > 99_999 {
        return Err(refused(11));
    }
    let buckets: Vec<&[u8]> = image.chunks(240).collect();
    if tune_in >= buckets.len() as u64 {
        return Err(refused(12));
    }
    let mut listener = Listener::new(tag);
    let mut place = tune_in as usize;
    let mut lines = Vec::new();
    let found = loop {
        let (answer, first, count) = listener.step(buckets[place]);
        for i in first..first + count {
            lines.extend(&buckets[place][29 + 26 * i as usize..][..26]);
            lines.push(b'\n');
        }
        match answer {
            Answer::Doze(distance) => place = (place + distance as usize) % buckets.len(),
            Answer::Found => break true,
            Answer::Absent => break false,
            Answer::Refused(number) => return Err(Refusal { number, place: place as u64 }),
        }
    };
    if !found {
        lines.clear();
    }
    if room < lines.len() {
        return Err(refused(7));
    }
    Ok((found, listener.heard(), listener.elapsed(), lines))
}

/// The mean wait: "take elapsed over all N tune-ins and all different tags of the
/// list, add them", each from its own hearing; 17 "comes after 6".
pub fn mean(list: &[u8], n: u64, p: u64, layout: u64, copies: u64) -> Result<Mean, Refusal> {
    let image = build(list, n, p, layout, copies, usize::MAX)?;
    let tags: BTreeSet<u64> = parse_list(list)?.iter().map(|line| line[0]).collect();
    if tags.is_empty() {
        return Err(Refusal { number: 17, place: 0 });
    }
    let buckets = (image.len() / 240) as u64;
    let mut sum = 0;
    for &tag in &tags {
        for tune_in in 0..buckets {
            let (_, _, elapsed, _) = lookup(&image, tag, tune_in, usize::MAX)?;
            sum += elapsed;
        }
    }
    let divisor = buckets * tags.len() as u64;
    Ok(Mean { sum, divisor, quotient: sum / divisor, remainder: sum % divisor })
}
