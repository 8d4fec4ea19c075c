//! Building: a list into a cycle.

use std::borrow::Cow;

use crate::bucket::BUCKET;
use crate::columns::{at, at_mut};
use crate::cycle::Cycle;
use crate::line::{self, FIGURES, LINE, MAX_LINES};
use crate::print::Lines;
use crate::{Refusal, Settings};

/// Builds the cycle of a list into `out` and returns N. "Building tests 1 to 7
/// in that order, each over the whole list"; nothing is written before.
pub fn build(
    list: &[u8],
    n: u64,
    p: u64,
    layout: u64,
    copies: u64,
    out: &mut [u8],
) -> Result<u64, Refusal> {
    check_settings(n, p, layout)?;
    let cycle = send(&accepted(list)?, [n, p, layout, copies], out)?;
    Ok(cycle.buckets())
}

/// 5 to 7, then the cycle of a list as it is sent, with these settings.
#[inline(always)]
pub(crate) fn send(
    list: &[u8],
    [n, p, layout, copies]: Settings,
    out: &mut [u8],
) -> Result<Cycle, Refusal> {
    let lines = (list.len() / LINE) as u64;
    let cycle = Cycle::new(lines, n, p, layout, copies).map_err(Refusal::of)?;
    let image = out.get_mut(..BUCKET * cycle.buckets() as usize).ok_or(Refusal::of(7))?;
    let lines = List { list, p };
    cycle.walk(|slot| {
        let bucket = at_mut(image, BUCKET * slot.place as usize);
        cycle.print(&slot, &lines, bucket);
        Some(())
    });
    Ok(cycle)
}

/// 1: "n, p or layout outside its range".
pub(crate) fn check_settings(n: u64, p: u64, layout: u64) -> Result<(), Refusal> {
    let in_range = (2..=8).contains(&n) && (1..=8).contains(&p) && (1..=2).contains(&layout);
    in_range.then_some(()).ok_or(Refusal::of(1))
}

/// The list as it is sent: itself if it has no leading zero, else a copy with
/// them made blank (C-13). Or its refusal by 2 to 4.
#[inline(always)]
pub(crate) fn accepted(list: &[u8]) -> Result<Cow<'_, [u8]>, Refusal> {
    match check_list(list) {
        // Misprinted for a bucket: it may be for its leading zeros alone.
        Err(Refusal { number: 3, .. }) => accepted_blanked(list).map(Cow::from),
        checked => checked.map(|()| list.into()),
    }
}

/// The copy, if it is accepted.
#[cold]
fn accepted_blanked(list: &[u8]) -> Result<Vec<u8>, Refusal> {
    let blanked = line::blanked(list);
    check_list(&blanked).map(|()| blanked)
}

/// 2, then 3 over the whole list, then 4 over the whole list, for a list without
/// leading zeros.
#[inline(always)]
fn check_list(list: &[u8]) -> Result<(), Refusal> {
    if !list.len().is_multiple_of(LINE) || (list.len() / LINE) as u64 > MAX_LINES {
        return Err(Refusal::of(2));
    }
    let mut last = 0;
    let mut falls = None;
    for (place, line) in (0..).zip(list.chunks_exact(LINE)) {
        let tag = line::tag_of(at(line, 0)).filter(|_| line[FIGURES] == b'\n');
        let Some(tag) = tag else {
            return Err(Refusal { number: 3, place });
        };
        if tag < last && falls.is_none() {
            falls = Some(Refusal { number: 4, place });
        }
        last = tag;
    }
    falls.map_or(Ok(()), Err)
}

/// The lines of a list.
struct List<'a> {
    list: &'a [u8],
    p: u64,
}

impl Lines for List<'_> {
    #[inline(always)]
    fn line(&self, data: u64, _place: u64, i: u64) -> &[u8; FIGURES] {
        at(self.list, LINE * (data * self.p + i) as usize)
    }
}
