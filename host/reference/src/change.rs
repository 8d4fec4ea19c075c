//! Document 02, C-14, "Skips come and go": a line arrives in a list, or is taken
//! out of it, and the list's cycle is kept up to date.
//!
//! "The list lies in a lent buffer, given with its number of lines": at its front.

use crate::build::{accepted, check_settings, send};
use crate::columns::BLANK;
use crate::cycle::Cycle;
use crate::line::{self, LINE, MAX_LINES};
use crate::{Refusal, Settings};

/// The changed list's number of lines, and "D, k, N".
#[derive(Clone, Copy, Debug, PartialEq, Eq)]
pub struct Changed {
    pub lines: u64,
    pub d: u64,
    pub k: u64,
    pub n: u64,
}

impl Changed {
    fn of(cycle: &Cycle) -> Changed {
        Changed { lines: cycle.lines, d: cycle.data, k: cycle.levels(), n: cycle.buckets() }
    }
}

/// "A new line goes, bytes as given, behind all lines of its tag". Refuses by 1 to
/// 4, 16, then 5 to 7 "on the changed list".
pub fn arrive(
    buffer: &mut [u8],
    lines: u64,
    line: &[u8],
    settings: Settings,
    out: &mut [u8],
) -> Result<Changed, Refusal> {
    let (mut sent, new) = judged(buffer, lines, line, settings)?;
    let end = sent.len();
    if lines == MAX_LINES || buffer.len() < end + LINE {
        return Err(Refusal::of(16));
    }
    let tag = line::tag(&new);
    let later = sent.chunks(LINE).position(|other| line::tag(other) > tag);
    let at = later.map_or(end, |place| LINE * place);
    sent.splice(at..at, new);
    let cycle = send(&sent, settings, out)?;
    buffer.copy_within(at..end, at + LINE);
    buffer[at..at + LINE].copy_from_slice(line);
    Ok(Changed::of(&cycle))
}

/// "A line taken out is the first whose four numbers equal those of the one given",
/// and "the last line's 27 bytes become blank". Refuses by 1 to 4, 15, then 5 to 7
/// "on the changed list".
pub fn take_out(
    buffer: &mut [u8],
    lines: u64,
    line: &[u8],
    settings: Settings,
    out: &mut [u8],
) -> Result<Changed, Refusal> {
    let (mut sent, old) = judged(buffer, lines, line, settings)?;
    let end = sent.len();
    // As they are sent, lines of the same numbers have the same bytes.
    let place = sent.chunks(LINE).position(|other| other == old).ok_or(Refusal::of(15))?;
    let at = LINE * place;
    sent.drain(at..at + LINE);
    let cycle = send(&sent, settings, out)?;
    buffer.copy_within(at + LINE..end, at);
    buffer[end - LINE..end].fill(BLANK);
    Ok(Changed::of(&cycle))
}

/// List and given line as they are sent, leading zeros made blank; or 1 to 4.
fn judged(
    buffer: &[u8],
    lines: u64,
    line: &[u8],
    [n, p, layout, _]: Settings,
) -> Result<(Vec<u8>, Vec<u8>), Refusal> {
    check_settings(n, p, layout)?;
    // "a number that the buffer cannot hold is 2, and so is a given line not 27 bytes long"
    if lines > MAX_LINES || buffer.len() < LINE * lines as usize || line.len() != LINE {
        return Err(Refusal::of(2));
    }
    let list = accepted(&buffer[..LINE * lines as usize]);
    // "3 with the number of lines in the list as its place"
    let line = accepted(line).map_err(|_| Refusal { number: 3, place: lines });
    match (list, line) {
        (Ok(list), Ok(line)) => Ok((list.into_owned(), line.into_owned())),
        (Err(Refusal { number: 4, .. }), Err(misprinted)) => Err(misprinted),
        (Err(refusal), _) | (_, Err(refusal)) => Err(refusal),
    }
}
