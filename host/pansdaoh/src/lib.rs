//! Tare lists on air: building a list into a cycle of buckets, sizing a cycle
//! before there is a list, lines that arrive in a list or are taken out of it, the
//! mean wait of a list's tags, reading a cycle back to its list, a listener that
//! picks out the lines of one tag, and a lookup that runs it over an image.
//!
//! The work is done by the static library `pansdaoh`. [`calls`] has its calls
//! as they are; the functions here turn a refusal into an error, a [`Refusal`].
#![deny(unsafe_code)]

pub mod calls;
mod listener;
mod refusal;

pub use listener::{Answer, Listener};
pub use refusal::Refusal;

/// Bytes of a list line, its newline included.
pub const LINE: usize = 27;
/// Bytes of a bucket.
pub const BUCKET: usize = 240;
/// The most lines of a list.
pub const MAX_LINES: usize = 40_000;
/// The most buckets of a cycle.
pub const MAX_BUCKETS: usize = 99_999;

/// The settings of a cycle.
#[derive(Clone, Copy, Debug, PartialEq, Eq)]
pub struct Settings {
    /// Entries for an index bucket, 2 to 8.
    pub n: u64,
    /// Lines for a data bucket, 1 to 8.
    pub p: u64,
    /// 1 distributed, 2 (1,m).
    pub layout: u64,
    /// r or m.
    pub copies: u64,
}

/// The figures of a cycle.
#[derive(Clone, Copy, Debug, PartialEq, Eq)]
pub struct Size {
    /// Index levels, at least 1.
    pub k: u64,
    /// D, the data buckets.
    pub d: u64,
    /// N, the buckets of the cycle.
    pub n: u64,
    /// Bytes of the image, 240 for each bucket.
    pub bytes: u64,
    /// The most buckets that a display hears whose hearing ends in this cycle,
    /// from any tune-in: 2 + k + C, C being at most D and at least 1.
    pub heard: u64,
}

/// A list after a change, and its cycle.
#[derive(Clone, Copy, Debug, PartialEq, Eq)]
pub struct Changed {
    /// Lines of the list.
    pub lines: u64,
    /// D, the data buckets.
    pub d: u64,
    /// Index levels, at least 1.
    pub k: u64,
    /// N, the buckets of the cycle.
    pub n: u64,
}

/// A mean wait: elapsed over all N tune-ins and all T different tags of a list.
#[derive(Clone, Copy, Debug, PartialEq, Eq)]
pub struct Mean {
    /// Elapsed of all these hearings, added.
    pub sum: u64,
    /// Their number, N × T, at least 1.
    pub divisor: u64,
    /// The sum divided by it.
    pub quotient: u64,
    /// What is left of the sum, below the divisor.
    pub remainder: u64,
}

/// What a lookup returns.
#[derive(Clone, Copy, Debug, PartialEq, Eq)]
pub struct Looked {
    /// Found, else absent.
    pub found: bool,
    pub heard: u64,
    pub elapsed: u64,
    /// The number of lines written.
    pub lines: u64,
}

/// A line's four numbers.
#[derive(Clone, Copy, Debug, PartialEq, Eq)]
pub struct Line {
    pub tag: u64,
    /// In kg.
    pub tare: u64,
    /// The material code.
    pub code: u64,
    /// The weighing number.
    pub weighing: u64,
}

/// Builds the cycle of a list, whose numbers may have leading zeros, into `out`
/// and returns N, its buckets.
pub fn build(list: &[u8], settings: Settings, out: &mut [u8]) -> Result<u64, Refusal> {
    let Settings { n, p, layout, copies } = settings;
    counted(calls::build(list, n, p, layout, copies, out))
}

/// The figures of the cycle of any list of so many lines, for a tag whose lines
/// lie in `c` data buckets; nothing is built.
pub fn size(lines: u64, settings: Settings, c: u64) -> Result<Size, Refusal> {
    let Settings { n, p, layout, copies } = settings;
    let size = calls::size(lines, n, p, layout, copies, c);
    accepted(size.number, size.place)?;
    let calls::Size { k, d, n, bytes, heard, .. } = size;
    Ok(Size { k, d, n, bytes, heard })
}

/// A line arrives, bytes as given, in the list of so many lines at the front of
/// `list`, behind all lines of its tag. The list's lines behind it move one place
/// on, and the changed list's cycle is built into `out`.
pub fn arrive(
    list: &mut [u8],
    lines: u64,
    line: &[u8],
    settings: Settings,
    out: &mut [u8],
) -> Result<Changed, Refusal> {
    let Settings { n, p, layout, copies } = settings;
    changed(calls::arrive(list, lines, line, [n, p, layout, copies], out))
}

/// The first line with the four numbers of the one given is taken out of the list
/// of so many lines at the front of `list`. The list's lines behind it move one
/// place back, the last one's place becomes blank, and the changed list's cycle is
/// built into `out`.
pub fn take_out(
    list: &mut [u8],
    lines: u64,
    line: &[u8],
    settings: Settings,
    out: &mut [u8],
) -> Result<Changed, Refusal> {
    let Settings { n, p, layout, copies } = settings;
    changed(calls::take_out(list, lines, line, [n, p, layout, copies], out))
}

/// The mean wait in the cycle of a list, whose numbers may have leading zeros, sent
/// again and again and without a loss; nothing is built.
pub fn mean(list: &[u8], settings: Settings) -> Result<Mean, Refusal> {
    let Settings { n, p, layout, copies } = settings;
    let mean = calls::mean(list, n, p, layout, copies);
    accepted(mean.number, mean.place)?;
    let calls::Mean { sum, divisor, quotient, remainder, .. } = mean;
    Ok(Mean { sum, divisor, quotient, remainder })
}

/// Writes the list that builds this image, without leading zeros, into `out` and
/// returns its lines.
pub fn read_back(image: &[u8], settings: Settings, out: &mut [u8]) -> Result<u64, Refusal> {
    let Settings { n, p, layout, copies } = settings;
    counted(calls::read_back(image, n, p, layout, copies, out))
}

/// Listens for a tag from a tune-in bucket on; the lines found go to `out`.
pub fn lookup(image: &[u8], tag: u64, tune_in: u64, out: &mut [u8]) -> Result<Looked, Refusal> {
    let found = calls::lookup(image, tag, tune_in, out);
    accepted(found.number, found.place)?;
    let calls::Found { end, heard, elapsed, lines, .. } = found;
    Ok(Looked { found: end == calls::FOUND, heard, elapsed, lines })
}

/// Line i of a bucket; none in an index bucket or past a data bucket's lines.
pub fn line(bucket: &[u8], i: u64) -> Result<Option<Line>, Refusal> {
    let calls::Line { number, place, present, tag, tare, code, weighing } = calls::line(bucket, i);
    accepted(number, place)?;
    Ok((present != 0).then_some(Line { tag, tare, code, weighing }))
}

fn changed(change: calls::Change) -> Result<Changed, Refusal> {
    accepted(change.number, change.place)?;
    let calls::Change { lines, d, k, n, .. } = change;
    Ok(Changed { lines, d, k, n })
}

fn counted(answer: calls::Answer) -> Result<u64, Refusal> {
    accepted(answer.number, answer.place)?;
    Ok(answer.count)
}

fn accepted(number: u64, place: u64) -> Result<(), Refusal> {
    match number {
        0 => Ok(()),
        _ => Err(Refusal { number, place }),
    }
}
