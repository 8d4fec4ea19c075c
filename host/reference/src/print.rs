//! The printed buckets of a cycle: distances by arithmetic on its measures,
//! tags and lines as the bytes they are.

use std::ops::Range;

use crate::bucket::*;
use crate::columns::{at, at_mut, print, BLANK};
use crate::cycle::{Cycle, Kind, Slot};
use crate::line::{FIGURES, TAG};

/// Where the printed lines lie, in a list or in an image.
pub trait Lines {
    /// Line i of a data bucket that stands at `place`.
    fn line(&self, data: u64, place: u64, i: u64) -> &[u8; FIGURES];
}

impl Cycle {
    /// Prints the bucket that stands at a place. A pair or entry distance "that
    /// would pass into the coming cycle becomes the distance to that cycle's
    /// start" (C-12).
    #[inline(always)]
    pub(crate) fn print(&self, slot: &Slot, lines: &impl Lines, bucket: &mut [u8; BUCKET]) {
        bucket.fill(BLANK);
        bucket[NEWLINE] = b'\n';
        let place = slot.place;
        print(at_mut(bucket, POSITION), place);
        print(at_mut(bucket, TO_CYCLE), self.buckets - place);
        print(at_mut(bucket, TO_SEGMENT), slot.segment.end - place);
        match slot.kind {
            Kind::Path(level) => self.print_path(slot, level, lines, bucket),
            Kind::Tree { height, index } => self.print_tree(slot, height, index, lines, bucket),
            Kind::Data { data, next_at } => self.print_data(place, data, next_at, lines, bucket),
        }
    }

    /// A path bucket: its next copy stands before its next child, after the
    /// whole block of this one.
    fn print_path(&self, slot: &Slot, level: usize, lines: &impl Lines, bucket: &mut [u8; BUCKET]) {
        let segment = slot.segment;
        let place = slot.place;
        let height = self.levels + 1 - level;
        let children = self.children(height, segment.from / self.width[height]);
        print_index_head(bucket, level as u64, &children);
        self.print_first_pair(slot, lines, bucket);
        for j in 2..=level {
            let height = self.levels + 1 - j;
            let index = segment.from / self.width[height];
            let block_end = segment.first[j] + self.block[height];
            let last = self.last_under(height, index);
            // The next sibling, if there is one, sends their parent again.
            let distance = if !(index + 1).is_multiple_of(self.n) && last + 1 < self.data {
                block_end - place
            } else {
                self.buckets - place
            };
            let tag = self.last_tag(lines, last, block_end.min(self.buckets) - 1);
            print_pointer(bucket, PAIRS, j as u64 - 1, tag, distance);
        }
        let below = height - 1;
        let block = self.block[below];
        let next = segment.from / self.width[below];
        let first = children.start;
        for child in children {
            // The first copy of a child, unless it has passed.
            let first_at = place + 1 + child * (1 + block) - next * (1 + block);
            let distance = if child < next { self.buckets } else { first_at } - place;
            let last_at = (first_at + block).min(self.buckets) - 1;
            let tag = self.last_tag(lines, self.last_under(below, child), last_at);
            print_pointer(bucket, ENTRIES, child - first, tag, distance);
        }
    }

    /// A bucket of the tree below B, or of a whole tree.
    #[inline(always)]
    fn print_tree(
        &self,
        slot: &Slot,
        height: usize,
        index: u64,
        lines: &impl Lines,
        bucket: &mut [u8; BUCKET],
    ) {
        let children = self.children(height, index);
        // "Control pairs stand in each root of layout 2".
        let pairs = self.layout == 2 && height == self.levels;
        print_index_head(bucket, pairs as u64, &children);
        if pairs {
            self.print_first_pair(slot, lines, bucket);
        }
        let first = children.start;
        for child in children {
            let last = self.last_under(height - 1, child);
            let last_at = self.data_place(slot.segment, last);
            let distance = if height > 1 {
                1 + (child - first) * self.subtree[height - 1]
            } else if last_at > slot.place {
                last_at - slot.place
            } else {
                self.buckets - slot.place
            };
            let tag = self.last_tag(lines, last, last_at);
            print_pointer(bucket, ENTRIES, child - first, tag, distance);
        }
    }

    /// "The first: the tag of the last line sent earlier in this cycle (blank
    /// if none), and the distance to the next cycle."
    fn print_first_pair(&self, slot: &Slot, lines: &impl Lines, bucket: &mut [u8; BUCKET]) {
        let segment = slot.segment;
        let tag = match segment.from {
            0 => b"          ",
            from => self.last_tag(lines, from - 1, segment.start - 1),
        };
        print_pointer(bucket, PAIRS, 0, tag, self.buckets - slot.place);
    }

    #[inline(always)]
    fn print_data(
        &self,
        place: u64,
        data: u64,
        next_at: u64,
        lines: &impl Lines,
        bucket: &mut [u8; BUCKET],
    ) {
        let count = self.line_count(data);
        // "the distance to the next data bucket of this cycle if that one's
        // first tag equals this one's last, else 0"
        let follows = data + 1 < self.data
            && tag(lines.line(data + 1, next_at, 0)) == self.last_tag(lines, data, place);
        let follow_on = if follows { next_at - place } else { 0 };
        print(at_mut(bucket, FOLLOW_ON), follow_on);
        bucket[LETTER] = b'D';
        print_counts(bucket, 0, count);
        for i in 0..count {
            *at_mut(bucket, LINES + FIGURES * i as usize) = *lines.line(data, place, i);
        }
    }

    /// The printed tag of the last line of a data bucket.
    #[inline(always)]
    fn last_tag<'a>(&self, lines: &'a impl Lines, data: u64, place: u64) -> &'a [u8; TAG] {
        tag(lines.line(data, place, self.line_count(data) - 1))
    }
}

/// The printed tag of a line.
#[inline(always)]
fn tag(line: &[u8; FIGURES]) -> &[u8; TAG] {
    at(line, 0)
}

#[inline(always)]
fn print_index_head(bucket: &mut [u8; BUCKET], pairs: u64, children: &Range<u64>) {
    print(at_mut(bucket, FOLLOW_ON), 0);
    bucket[LETTER] = b'I';
    print_counts(bucket, pairs, children.end - children.start);
}

/// The two counts, of one digit each.
#[inline(always)]
fn print_counts(bucket: &mut [u8; BUCKET], pairs: u64, count: u64) {
    bucket[PAIR_COUNT + 1] = b'0' + pairs as u8;
    bucket[COUNT + 1] = b'0' + count as u8;
}

/// A control pair or an entry: "each a tag and a distance".
#[inline(always)]
fn print_pointer(bucket: &mut [u8; BUCKET], start: usize, i: u64, tag: &[u8; TAG], distance: u64) {
    let pointer: &mut [u8; POINTER] = at_mut(bucket, start + POINTER * i as usize);
    *at_mut(pointer, 0) = *tag;
    print(at_mut(pointer, TAG), distance);
}
