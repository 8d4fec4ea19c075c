//! Reading back: a cycle into its list.

use crate::bucket::{BUCKET, COUNT, LETTER, LINES, MAX_BUCKETS};
use crate::build::check_settings;
use crate::columns::{at, read};
use crate::cycle::{Cycle, Kind};
use crate::line::{self, FIGURES, LINE, MAX_LINES};
use crate::print::Lines;
use crate::Refusal;

/// Writes the list that builds this image under these settings, the one without
/// leading zeros, and returns its number of lines. "Reading back: 1, 11, 13, 7."
pub fn read_back(
    image: &[u8],
    n: u64,
    p: u64,
    layout: u64,
    copies: u64,
    out: &mut [u8],
) -> Result<u64, Refusal> {
    check_settings(n, p, layout)?;
    check_image(image)?;
    let lines = check_cycle(image, n, p, layout, copies).ok_or(Refusal::of(13))?;
    let list = out.get_mut(..LINE * lines as usize).ok_or(Refusal::of(7))?;
    let mut rest = list.chunks_exact_mut(LINE);
    for bucket in data_buckets(image) {
        let figures = bucket[LINES..].chunks_exact(FIGURES);
        for (line, figures) in rest.by_ref().take(p as usize).zip(figures) {
            line[..FIGURES].copy_from_slice(figures);
            line[FIGURES] = b'\n';
        }
    }
    Ok(lines)
}

/// 11: "image empty, no multiple of 240, or over 99,999 buckets". Returns the
/// number of buckets.
pub(crate) fn check_image(image: &[u8]) -> Result<u64, Refusal> {
    let buckets = (image.len() / BUCKET) as u64;
    if !image.len().is_multiple_of(BUCKET) || buckets == 0 || buckets > MAX_BUCKETS {
        return Err(Refusal::of(11));
    }
    Ok(buckets)
}

/// The number of lines, if some list builds this image. Each bucket is held
/// against the one that the lines in the image's own data buckets build.
fn check_cycle(image: &[u8], n: u64, p: u64, layout: u64, copies: u64) -> Option<u64> {
    let lines = line_count(image, p)?;
    let cycle = Cycle::new(lines, n, p, layout, copies).ok()?;
    if cycle.buckets() != (image.len() / BUCKET) as u64 {
        return None;
    }
    let mut last = 0;
    let mut built = [0; BUCKET];
    cycle.walk(|slot| {
        let bucket = at::<BUCKET>(image, BUCKET * slot.place as usize);
        cycle.print(&slot, &Image { image }, &mut built);
        if built != *bucket {
            return None;
        }
        if let Kind::Data { data, .. } = slot.kind {
            // The list would not be refused by 3 or 4.
            for i in 0..cycle.line_count(data) as usize {
                let tag = line::tag_of(at(bucket, LINES + FIGURES * i))?;
                if tag < last {
                    return None;
                }
                last = tag;
            }
        }
        Some(())
    })?;
    Some(lines)
}

/// "only the last data bucket may be part full": the lines that the number of
/// data buckets and the last bucket's count say. (N does not tell it.)
fn line_count(image: &[u8], p: u64) -> Option<u64> {
    let data = data_buckets(image).count() as u64;
    if data == 0 {
        return Some(0);
    }
    let last = read::<2>(image, image.len() - BUCKET + COUNT)?;
    let lines = (data - 1) * p + last;
    (1 <= last && last <= p && lines <= MAX_LINES).then_some(lines)
}

/// The buckets with the letter D.
fn data_buckets(image: &[u8]) -> impl Iterator<Item = &[u8]> {
    image.chunks_exact(BUCKET).filter(|bucket| bucket[LETTER] == b'D')
}

/// The lines in an image's data buckets.
struct Image<'a> {
    image: &'a [u8],
}

impl Lines for Image<'_> {
    #[inline(always)]
    fn line(&self, _data: u64, place: u64, i: u64) -> &[u8; FIGURES] {
        at(self.image, BUCKET * place as usize + LINES + FIGURES * i as usize)
    }
}
