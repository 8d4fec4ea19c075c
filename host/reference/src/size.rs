//! Document 02, C-11, "Size before sending": the figures of a cycle from a
//! number of lines.

use crate::bucket::BUCKET;
use crate::build::check_settings;
use crate::cycle::Cycle;
use crate::line::MAX_LINES;
use crate::Refusal;

/// "k, D, N, the image's bytes, and the limit on heard buckets".
#[derive(Clone, Copy, Debug, PartialEq, Eq)]
pub struct Size {
    pub k: u64,
    pub d: u64,
    pub n: u64,
    pub bytes: u64,
    pub heard: u64,
}

/// The figures of the cycle of so many lines, heard "for a tag lying in C data
/// buckets". "1, 2, 5 and 6 are given as there, with 2 for the line count alone".
pub fn size(lines: u64, n: u64, p: u64, layout: u64, copies: u64, c: u64) -> Result<Size, Refusal> {
    check_settings(n, p, layout)?;
    if lines > MAX_LINES {
        return Err(Refusal::of(2));
    }
    let cycle = Cycle::new(lines, n, p, layout, copies).map_err(Refusal::of)?;
    let (k, d, n) = (cycle.levels(), cycle.data, cycle.buckets());
    // "A C above D is taken as D."
    let c = c.min(d);
    Ok(Size { k, d, n, bytes: BUCKET as u64 * n, heard: 2 + k + c.max(1) })
}
