//! "A bucket": 240 bytes, their columns, and what a single bucket can show.

use std::ops::Range;

use crate::columns::{at, read, BLANK};
use crate::line::{self, FIGURES, TAG};
use crate::Refusal;

/// Bytes of a bucket.
pub const BUCKET: usize = 240;
/// The most buckets of a cycle or an image.
pub const MAX_BUCKETS: u64 = 99_999;

/// Columns of a position or a distance.
pub const DISTANCE: usize = 6;
/// Columns of a control pair or an entry.
pub const POINTER: usize = TAG + DISTANCE;

// Where each field starts.
pub const POSITION: usize = 0;
pub const TO_CYCLE: usize = 6;
pub const TO_SEGMENT: usize = 12;
pub const FOLLOW_ON: usize = 18;
pub const LETTER: usize = 24;
pub const PAIR_COUNT: usize = 25;
pub const COUNT: usize = 27;
pub const PAIRS: usize = 29;
pub const ENTRIES: usize = 93;
pub const LINES: usize = 29;
pub const NEWLINE: usize = 239;

pub const MAX_PAIRS: usize = 4;
pub const MAX_ENTRIES: usize = 8;
pub const MAX_BUCKET_LINES: usize = 8;

/// A control pair or an entry.
#[derive(Clone, Copy, Default)]
pub struct Pointer {
    pub tag: u64,
    pub distance: u64,
}

/// What a bucket that is not misprinted says.
#[derive(Default)]
pub struct Bucket {
    pub position: u64,
    /// The distance to the next cycle's start.
    pub to_cycle: u64,
    pub to_segment: u64,
    pub follow_on: u64,
    /// The letter I, else D.
    pub is_index: bool,
    /// The first pair's tag is blank.
    pub first_blank: bool,
    pairs: [Pointer; MAX_PAIRS],
    pair_count: usize,
    entries: [Pointer; MAX_ENTRIES],
    tags: [u64; MAX_BUCKET_LINES],
    /// Of entries, or of lines.
    count: usize,
}

impl Bucket {
    /// Takes over what the bytes say, each column read once; None if the
    /// bucket is misprinted.
    #[inline(always)]
    pub fn read(&mut self, bytes: &[u8; BUCKET]) -> Option<()> {
        self.position = read::<6>(bytes, POSITION)?;
        self.to_cycle = read::<6>(bytes, TO_CYCLE)?;
        self.to_segment = read::<6>(bytes, TO_SEGMENT)?;
        self.follow_on = read::<6>(bytes, FOLLOW_ON)?;
        self.is_index = bytes[LETTER] == b'I';
        self.pair_count = read::<2>(bytes, PAIR_COUNT)? as usize;
        self.count = read::<2>(bytes, COUNT)? as usize;
        // "N, at most 99,999", each distance; the two counts.
        if self.to_cycle == 0
            || self.buckets() > MAX_BUCKETS
            || !is_distance(self.to_segment, self.to_cycle)
            || self.pair_count > MAX_PAIRS
            || self.count > MAX_ENTRIES
            || bytes[NEWLINE] != b'\n'
        {
            return None;
        }
        match bytes[LETTER] {
            // "The follow-on is 0 in an index bucket."
            b'I' if self.follow_on == 0 => self.read_index(bytes),
            // "No control pairs", 1 to 8 lines, the follow-on "is below the
            // distance to the next cycle".
            b'D' if self.pair_count == 0 && self.count > 0 && self.follow_on < self.to_cycle => {
                self.read_data(bytes)
            }
            _ => None,
        }
    }

    /// "Index: control pairs from column 29, entries from column 93."
    #[inline(always)]
    fn read_index(&mut self, bytes: &[u8; BUCKET]) -> Option<()> {
        // "Only one field may be blank: the tag of an index bucket's first
        // control pair."
        self.first_blank = self.pair_count > 0 && *at::<TAG>(bytes, PAIRS) == [BLANK; TAG];
        for i in 0..self.pair_count {
            let columns = at(bytes, PAIRS + POINTER * i);
            self.pairs[i] = read_pointer(columns, self.to_cycle, i == 0 && self.first_blank)?;
        }
        let mut last = 0;
        for i in 0..self.count {
            let entry = read_pointer(at(bytes, ENTRIES + POINTER * i), self.to_cycle, false)?;
            // "Entry tags never fall."
            if entry.tag < last {
                return None;
            }
            last = entry.tag;
            self.entries[i] = entry;
        }
        let blank = is_blank(&bytes[PAIRS + POINTER * self.pair_count..ENTRIES])
            && is_blank(&bytes[ENTRIES + POINTER * self.count..NEWLINE]);
        blank.then_some(())
    }

    /// "Data: lines without newline, 26 columns each, from column 29."
    #[inline(always)]
    fn read_data(&mut self, bytes: &[u8; BUCKET]) -> Option<()> {
        let mut last = 0;
        for i in 0..self.count {
            let tag = line::tag_of(at(bytes, LINES + FIGURES * i))?;
            // "Tags never fall."
            if tag < last {
                return None;
            }
            last = tag;
            self.tags[i] = tag;
        }
        is_blank(&bytes[LINES + FIGURES * self.count..NEWLINE]).then_some(())
    }

    /// N: "the position plus the second".
    #[inline(always)]
    pub fn buckets(&self) -> u64 {
        self.position + self.to_cycle
    }

    /// The control pairs of an index bucket.
    pub fn pairs(&self) -> &[Pointer] {
        &self.pairs[..self.pair_count]
    }

    /// The entries of an index bucket.
    pub fn entries(&self) -> &[Pointer] {
        &self.entries[..self.count]
    }

    /// The tags of a data bucket's lines.
    pub fn tags(&self) -> &[u64] {
        &self.tags[..self.count]
    }
}

/// The four numbers of line i of a bucket, None if it has no such line; 8 if
/// it is no well printed bucket.
pub fn line(bytes: &[u8], i: u64) -> Result<Option<[u64; 4]>, Refusal> {
    let mut bucket = Bucket::default();
    let bytes: &[u8; BUCKET] = bytes.try_into().map_err(|_| Refusal::of(8))?;
    bucket.read(bytes).ok_or(Refusal::of(8))?;
    if bucket.is_index || i >= bucket.count as u64 {
        return Ok(None);
    }
    let figures = &bytes[LINES + FIGURES * i as usize..][..FIGURES];
    let number = |columns: Range<usize>| {
        let text = std::str::from_utf8(&figures[columns]).unwrap();
        text.trim_start().parse::<u64>().unwrap()
    };
    Ok(Some([number(0..10), number(10..16), number(16..20), number(20..26)]))
}

/// "each a tag (10, range as in a list line) and a distance (6)".
#[inline(always)]
fn read_pointer(columns: &[u8; POINTER], to_cycle: u64, blank: bool) -> Option<Pointer> {
    let tag = if blank { 0 } else { line::tag(columns)? };
    let distance = read::<6>(columns, TAG)?;
    is_distance(distance, to_cycle).then_some(Pointer { tag, distance })
}

/// At least 1, and "no distance exceeds" that to the next cycle's start (C-12).
#[inline(always)]
fn is_distance(distance: u64, to_cycle: u64) -> bool {
    1 <= distance && distance <= to_cycle
}

/// "unused columns blank".
#[inline(always)]
fn is_blank(columns: &[u8]) -> bool {
    *columns == [BLANK; BUCKET][..columns.len()]
}
