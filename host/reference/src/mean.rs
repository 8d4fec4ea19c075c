//! Document 02, C-17, "Mean wait with its remainder".
//!
//! The list's cycle is built, and the listener hears each tag over it. Tune-ins
//! that doze to the same bucket go on alike from there, so one hearing is run for
//! them, that of the first: each one behind it ends at the same bucket and has one
//! less go by.

use crate::bucket::{Bucket, BUCKET};
use crate::build::{accepted, check_settings, send};
use crate::columns::at;
use crate::cycle::Cycle;
use crate::line::{self, LINE};
use crate::listener::{Answer, Listener};
use crate::Refusal;

/// "the sum, the divisor N × T .., the quotient and the exact remainder".
#[derive(Clone, Copy, Debug, PartialEq, Eq)]
pub struct Mean {
    pub sum: u64,
    pub divisor: u64,
    pub quotient: u64,
    pub remainder: u64,
}

/// The mean of "elapsed over all N tune-ins and all different tags of the list".
/// Refuses by 1 to 6, then by 17.
pub fn mean(list: &[u8], n: u64, p: u64, layout: u64, copies: u64) -> Result<Mean, Refusal> {
    check_settings(n, p, layout)?;
    let list = accepted(list)?;
    let lines = (list.len() / LINE) as u64;
    let cycle = Cycle::new(lines, n, p, layout, copies).map_err(Refusal::of)?;
    // "17: the list has no line; it comes after 6"
    if lines == 0 {
        return Err(Refusal::of(17));
    }
    let mut image = vec![0; BUCKET * cycle.buckets() as usize];
    send(&list, [n, p, layout, copies], &mut image)?;
    let air: Vec<Bucket> = image.chunks_exact(BUCKET).map(read).collect();
    let tag = |line| line::tag(line).unwrap();
    let mut tags: Vec<u64> = list.chunks_exact(LINE).map(tag).collect();
    tags.dedup();
    let mut sum = 0;
    let tune_ins: Vec<usize> = (0..air.len()).collect();
    let next = |tune_in: usize| tune_in as u64 + air[tune_in].to_segment;
    for alike in tune_ins.chunk_by(|&one, &other| next(one) == next(other)) {
        let count = alike.len() as u64;
        for &tag in &tags {
            // For each of them the first one's, less 0, 1, 2 and so on.
            sum += count * elapsed(&air, tag, alike[0]) - count * (count - 1) / 2;
        }
    }
    let divisor = (air.len() * tags.len()) as u64;
    Ok(Mean { sum, divisor, quotient: sum / divisor, remainder: sum % divisor })
}

/// A bucket of a cycle that was built.
fn read(bytes: &[u8]) -> Bucket {
    let mut bucket = Bucket::default();
    bucket.read(at(bytes, 0)).unwrap();
    bucket
}

/// A hearing to its end. "The list is unchanged throughout, no bucket lost."
fn elapsed(air: &[Bucket], tag: u64, tune_in: usize) -> u64 {
    let mut listener = Listener::new(tag);
    let mut place = tune_in;
    loop {
        let (next, answer, ..) = listener.take(&air[place]).unwrap();
        let Answer::Doze(distance) = answer else {
            return next.elapsed();
        };
        listener = next;
        place = (place + distance as usize) % air.len();
    }
}
