//! "The tree" and its two layouts: what stands at each place of a cycle.
//!
//! A bucket of level j has height k + 1 - j above the data buckets, which have
//! height 0. Bucket q of height h is above the data buckets from q × n^h up to
//! but without (q + 1) × n^h, as far as there are any.

use std::ops::Range;

use crate::bucket::MAX_BUCKETS;

/// "copies is r, 0 to the lesser of 4 and k - 1".
const MAX_COPIES: usize = 4;
/// Heights 0 to 16: 2^16 is more than 40,000.
const HEIGHTS: usize = 17;

/// The measures of a cycle.
pub struct Cycle {
    pub(crate) n: u64,
    pub(crate) p: u64,
    pub(crate) layout: u64,
    pub(crate) copies: u64,
    pub(crate) lines: u64,
    /// D
    pub(crate) data: u64,
    /// k
    pub(crate) levels: usize,
    /// By height: buckets of the tree, the data buckets at height 0.
    pub(crate) count: [u64; HEIGHTS],
    /// By height: data buckets under a full bucket, n^h.
    pub(crate) width: [u64; HEIGHTS],
    /// By height: index buckets of a full subtree, its top included.
    pub(crate) subtree: [u64; HEIGHTS],
    /// By height, layout 1, from a B up: the places from a full bucket's
    /// first copy to the last data bucket under it.
    pub(crate) block: [u64; HEIGHTS],
    /// Index buckets of the whole tree.
    pub(crate) tree: u64,
    /// Segments of the cycle.
    pub(crate) segments: u64,
    /// N
    pub(crate) buckets: u64,
}

/// One index segment and the data after it.
pub struct Segment {
    /// Its first place.
    pub(crate) start: u64,
    /// The level of its first bucket, in layout 1.
    pub(crate) top: usize,
    /// Places of its first data bucket, and of the next segment's start.
    pub(crate) data_at: u64,
    pub(crate) end: u64,
    /// Its data buckets, from `from` up to but without `to`.
    pub(crate) from: u64,
    pub(crate) to: u64,
    /// By level, layout 1: the first place of the bucket above `from`.
    pub(crate) first: [u64; MAX_COPIES + 2],
}

/// What stands at a place.
#[derive(Clone, Copy)]
pub enum Kind {
    /// A bucket of the path, on this level.
    Path(usize),
    /// Bucket `index` of `height` in the tree below B, or in a whole tree.
    Tree { height: usize, index: u64 },
    /// A data bucket; `next_at` is the place of the next one.
    Data { data: u64, next_at: u64 },
}

/// A place of the cycle.
pub struct Slot<'a> {
    pub place: u64,
    pub kind: Kind,
    pub segment: &'a Segment,
}

impl Cycle {
    /// The cycle of so many lines, at most 40,000, with n, p and layout in
    /// range. Refuses copies by 5 and a cycle of over 99,999 buckets by 6.
    pub fn new(lines: u64, n: u64, p: u64, layout: u64, copies: u64) -> Result<Cycle, u64> {
        let data = lines.div_ceil(p);
        let mut count = [data; HEIGHTS];
        let mut width = [1; HEIGHTS];
        let mut subtree = [0; HEIGHTS];
        let mut block = [0; HEIGHTS];
        // "the least k of at least 1 with n^k at least D"
        let mut levels = 0;
        while levels == 0 || width[levels] < data {
            levels += 1;
            width[levels] = width[levels - 1] * n;
            // The empty list has one root.
            count[levels] = data.div_ceil(width[levels]).max(1);
            subtree[levels] = subtree[levels - 1] * n + 1;
        }
        let in_range = match layout {
            1 => copies <= MAX_COPIES.min(levels - 1) as u64,
            _ => 1 <= copies && copies <= data.max(1),
        };
        if !in_range {
            return Err(5);
        }
        let tree = count[1..=levels].iter().sum();
        let (segments, buckets);
        if layout == 1 {
            let b = levels - copies as usize;
            block[b] = subtree[b] + width[b];
            for h in b..levels {
                block[h + 1] = n * (1 + block[h]);
            }
            segments = count[b];
            // A bucket of a path is sent once before each of its children.
            let paths: u64 = count[b..levels].iter().sum();
            let below: u64 = count[1..=b].iter().sum();
            buckets = data + paths + below;
        } else {
            segments = copies;
            buckets = data + copies * tree;
        }
        if buckets > MAX_BUCKETS {
            return Err(6);
        }
        Ok(Cycle {
            n,
            p,
            layout,
            copies,
            lines,
            data,
            levels,
            count,
            width,
            subtree,
            block,
            tree,
            segments,
            buckets,
        })
    }

    /// N, the cycle's buckets.
    pub fn buckets(&self) -> u64 {
        self.buckets
    }

    /// k, the index levels.
    pub fn levels(&self) -> u64 {
        self.levels as u64
    }

    /// How many lines a data bucket holds.
    #[inline(always)]
    pub(crate) fn line_count(&self, data: u64) -> u64 {
        self.p.min(self.lines - data * self.p)
    }

    /// The last data bucket under bucket `index` of `height`.
    #[inline(always)]
    pub(crate) fn last_under(&self, height: usize, index: u64) -> u64 {
        self.data.min((index + 1) * self.width[height]) - 1
    }

    /// The children of bucket `index` of `height`, on the height below.
    #[inline(always)]
    pub(crate) fn children(&self, height: usize, index: u64) -> Range<u64> {
        let first = index * self.n;
        first..self.count[height - 1].min(first + self.n)
    }

    /// Goes through the places from 0 to N - 1; None if `visit` stopped it.
    pub(crate) fn walk(&self, mut visit: impl FnMut(Slot) -> Option<()>) -> Option<()> {
        let mut segment = self.segment(0, 0, [0; MAX_COPIES + 2]);
        for s in 1..=self.segments {
            let next = self.segment(s, segment.end, segment.first);
            self.walk_segment(&segment, next.data_at, &mut visit)?;
            segment = next;
        }
        Some(())
    }

    /// Segment s, which starts at `start`; `first` is that of the one before.
    fn segment(&self, s: u64, start: u64, mut first: [u64; MAX_COPIES + 2]) -> Segment {
        if self.layout == 2 {
            // "Part i holds data buckets from floor(i × D / m) up to but
            // without floor((i + 1) × D / m), and the whole tree precedes it."
            let from = s * self.data / self.copies;
            let to = (s + 1) * self.data / self.copies;
            let data_at = start + self.tree;
            return Segment { start, top: 1, data_at, end: data_at + to - from, from, to, first };
        }
        let level_b = self.copies as usize + 1;
        let b = self.levels + 1 - level_b;
        let from = self.data.min(s * self.width[b]);
        let to = self.data.min(from + self.width[b]);
        // "Before B1 comes the path from the root; before a later B the path
        // from the lowest bucket above both it and its forerunner": from its
        // parent, or one level up for each bucket that it is the first under.
        let mut top = 1;
        if s > 0 && level_b > 1 {
            top = level_b - 1;
            let mut index = s;
            while top > 1 && index.is_multiple_of(self.n) {
                index /= self.n;
                top -= 1;
            }
        }
        // All below the top are sent for the first time.
        for (place, first) in (start + 1..).zip(&mut first[top + 1..=level_b]) {
            *first = place;
        }
        let below: u64 = if to - from == self.width[b] {
            self.subtree[b]
        } else {
            (1..=b).map(|h| (to - from).div_ceil(self.width[h]).max(1)).sum()
        };
        let data_at = start + (level_b - top) as u64 + below;
        Segment { start, top, data_at, end: data_at + to - from, from, to, first }
    }

    /// A segment: the path, "then the tree below B", "then the data under B";
    /// or the whole tree, then the data of its part.
    fn walk_segment(
        &self,
        segment: &Segment,
        next_data_at: u64,
        visit: &mut impl FnMut(Slot) -> Option<()>,
    ) -> Option<()> {
        let mut place = segment.start;
        let mut height = self.levels;
        if self.layout == 1 {
            let level_b = self.copies as usize + 1;
            for level in segment.top..level_b {
                visit(Slot { place, kind: Kind::Path(level), segment })?;
                place += 1;
            }
            height = self.levels + 1 - level_b;
        }
        let index = if self.layout == 1 { segment.from / self.width[height] } else { 0 };
        self.walk_tree(segment, height, index, place, visit)?;
        for data in segment.from..segment.to {
            let place = segment.data_at + (data - segment.from);
            let next_at = if data + 1 < segment.to { place + 1 } else { next_data_at };
            visit(Slot { place, kind: Kind::Data { data, next_at }, segment })?;
        }
        Some(())
    }

    /// "a parent before its children and a child's whole subtree before the
    /// next child".
    fn walk_tree(
        &self,
        segment: &Segment,
        height: usize,
        index: u64,
        mut place: u64,
        visit: &mut impl FnMut(Slot) -> Option<()>,
    ) -> Option<()> {
        visit(Slot { place, kind: Kind::Tree { height, index }, segment })?;
        place += 1;
        if height > 1 {
            for child in self.children(height, index) {
                self.walk_tree(segment, height - 1, child, place, visit)?;
                // Only the last child's subtree may be less than full.
                place += self.subtree[height - 1];
            }
        }
        Some(())
    }

    /// The place of a data bucket: in layout 1 one of this segment.
    #[inline(always)]
    pub(crate) fn data_place(&self, segment: &Segment, data: u64) -> u64 {
        if self.layout == 1 || (segment.from <= data && data < segment.to) {
            return segment.data_at + data - segment.from;
        }
        let part = ((data + 1) * self.copies - 1) / self.data.max(1);
        data + (part + 1) * self.tree
    }
}
