//! A tag looked up from every tune-in.
//!
//! What a listener answers behind a bucket of an image that it has taken and
//! dozes on from depends on that bucket, the tag, and the place in the two
//! cycles that it may hear, which is the position printed at tune-in plus
//! elapsed. Hearings that agree in these share the rest.

use std::collections::HashMap;
use std::fmt::Write;

use pansdaoh::{Answer, Looked, Refusal, BUCKET};

use crate::columns::number;
use crate::hearing::Hearing;
use crate::progress::Progress;

/// The table, or the first tune-in that is refused.
pub fn table(image: &[u8], tag: u64) -> Result<String, (u64, Refusal)> {
    let buckets = image.len() / BUCKET;
    let mut hearings = Hearings { image, tag, known: HashMap::new(), room: vec![0; image.len()] };
    let mut progress = Progress::new("tune-ins", buckets);
    let mut table = String::new();
    // One lookup at least, for its refusal by 11.
    for tune_in in 0..buckets.max(1) {
        let looked = hearings.look(tune_in).map_err(|refusal| (tune_in as u64, refusal))?;
        let (heard, elapsed, lines) = (looked.heard, looked.elapsed, looked.lines);
        let _ = writeln!(table, "{tune_in:>6}{heard:>6}{elapsed:>6}{lines:>6}");
        progress.at(tune_in);
    }
    Ok(table)
}

struct Hearings<'a> {
    image: &'a [u8],
    tag: u64,
    /// By a bucket's place and the place in the two cycles: what came behind it.
    known: HashMap<(usize, u64), Looked>,
    /// Room for a lookup's lines.
    room: Vec<u8>,
}

impl Hearings<'_> {
    /// What a lookup answers. Whatever is not plainly found or absent is left to the lookup.
    fn look(&mut self, tune_in: usize) -> Result<Looked, Refusal> {
        let shared = if tune_in == 0 { None } else { self.hear(tune_in) };
        match shared {
            // "On absent it .. returns 0 lines".
            Some(looked) => {
                Ok(Looked { lines: if looked.found { looked.lines } else { 0 }, ..looked })
            }
            None => pansdaoh::lookup(self.image, self.tag, tune_in as u64, &mut self.room),
        }
    }

    /// A hearing up to its end, or up to where it is known how it goes on.
    fn hear(&mut self, tune_in: usize) -> Option<Looked> {
        let tuned = number(&self.image[BUCKET * tune_in..][..6])?;
        let mut passed = Vec::new();
        let mut so_far = Looked { found: false, heard: 0, elapsed: 0, lines: 0 };
        for heard in Hearing::new(self.image, self.tag, tune_in) {
            let lines = so_far.lines + heard.lines.len() as u64;
            so_far = Looked { found: false, heard: heard.heard, elapsed: heard.elapsed, lines };
            let at = (heard.place, tuned + heard.elapsed);
            match heard.answer {
                Answer::Refused(_) => return None,
                Answer::Found => so_far.found = true,
                Answer::Absent => {}
                // The tune-in bucket is not taken as others are.
                Answer::Doze(_) if heard.tune_in => {}
                Answer::Doze(_) => match self.known.get(&at) {
                    None => passed.push((at, so_far)),
                    Some(rest) => {
                        so_far = together(so_far, *rest);
                        break;
                    }
                },
            }
        }
        for (at, before) in passed {
            self.known.insert(at, behind(before, so_far));
        }
        Some(so_far)
    }
}

/// The whole of a hearing, from a part and what came behind it.
fn together(part: Looked, rest: Looked) -> Looked {
    Looked {
        found: rest.found,
        heard: part.heard + rest.heard,
        elapsed: part.elapsed + rest.elapsed,
        lines: part.lines + rest.lines,
    }
}

/// What came behind a part of a whole hearing.
fn behind(part: Looked, whole: Looked) -> Looked {
    Looked {
        found: whole.found,
        heard: whole.heard - part.heard,
        elapsed: whole.elapsed - part.elapsed,
        lines: whole.lines - part.lines,
    }
}
