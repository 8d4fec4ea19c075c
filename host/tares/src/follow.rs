//! A display's way through an image, in words.

use std::fmt::Write;

use pansdaoh::{Answer, Looked, Refusal, BUCKET};

use crate::bucket::Bucket;
use crate::columns::line_text;
use crate::hearing::{Heard, Hearing};
use crate::pointers::Pointer;
use crate::segments::{title, Segments};
use crate::words::counted;

/// A display's way.
pub struct Way {
    /// Each bucket heard and what it told.
    pub text: String,
    /// How it ended: as a lookup tells it.
    pub end: Result<Looked, Refusal>,
    /// How many buckets were lost.
    pub lost: usize,
    /// The places of those that were to be lost once more, but the display did not wake for them.
    pub not_lost: Vec<usize>,
}

/// The way over an image that has whole buckets, more of them than `tune_in`.
pub fn way(image: &[u8], tag: u64, tune_in: u64, lost: &[usize]) -> Way {
    let segments = Segments::of(image);
    let mut hearing = Hearing::with_lost(image, tag, tune_in as usize, lost);
    let mut text = String::new();
    let mut looked = Looked { found: false, heard: 0, elapsed: 0, lines: 0 };
    let mut end = Ok(());
    for heard in hearing.by_ref() {
        let title = title(heard.place, Bucket(heard.bucket), &segments);
        let (told, next) = (told(tag, &heard, looked.lines), next(&heard, image.len() / BUCKET));
        let _ = writeln!(text, "{title}: {told}{next}");
        for line in heard.lines.clone() {
            let _ = writeln!(text, "  {}", line_text(Bucket(heard.bucket).line(line)));
        }
        looked = together(looked, &heard);
        if let Answer::Refused(Refusal { number, .. }) = heard.answer {
            end = Err(Refusal { number, place: heard.place as u64 });
        }
    }
    let not_lost = hearing.still_to_lose().to_vec();
    let lost = lost.len() - not_lost.len();
    Way { text, end: end.map(|()| looked), lost, not_lost }
}

/// What a lookup would tell behind this bucket.
fn together(before: Looked, heard: &Heard) -> Looked {
    let lines = match heard.answer {
        // "lines handed over earlier in the lookup are void"
        _ if heard.lost => 0,
        // "On absent it .. returns 0 lines".
        Answer::Absent => 0,
        _ => before.lines + heard.lines.len() as u64,
    };
    let found = heard.answer == Answer::Found;
    Looked { found, heard: heard.heard, elapsed: heard.elapsed, lines }
}

/// What the bucket says to a listener for this tag that has taken so many lines.
fn told(tag: u64, heard: &Heard, taken: u64) -> String {
    let bucket = Bucket(heard.bucket);
    if let Answer::Refused(_) = heard.answer {
        return String::new();
    }
    if heard.lost {
        let void = if taken > 0 { ", and lines taken before are void" } else { "" };
        return format!("lost, the next bucket is a tune-in{void}");
    }
    let text = |tag: Option<u64>| tag.map_or("blank".to_string(), |tag| tag.to_string());
    match Pointer::followed(tag, heard) {
        Some(Pointer::Segment) => "tune-in, the next index segment".to_string(),
        Some(Pointer::Pair(0)) => {
            let sent = text(bucket.pair(0).0);
            format!("pair 1, tag {tag} is at most {sent}, the last one sent, so it comes in the next cycle")
        }
        Some(Pointer::Pair(i)) => {
            let (pair, largest) = (i + 1, text(bucket.pair(i).0));
            format!("pair {pair}, tag {tag} is above {largest}, the largest under the path's level {pair} bucket")
        }
        Some(Pointer::Entry(i)) => {
            let (entry, largest) = (i + 1, text(bucket.entry(i).0));
            format!("entry {entry}, tag {tag} is at most {largest}, the largest below it")
        }
        Some(Pointer::FollowOn) => format!("{}, and the follow-on leads to more", lines(heard)),
        None if bucket.is_data() && !heard.tune_in => lines(heard),
        None if heard.answer == Answer::Absent => format!("no entry reaches tag {tag}"),
        None => "a pointer".to_string(),
    }
}

fn lines(heard: &Heard) -> String {
    format!("{} of the tag", counted(heard.lines.len(), "line"))
}

fn next(heard: &Heard, buckets: usize) -> String {
    match heard.answer {
        Answer::Doze(distance) => {
            let next = (heard.place + distance as usize) % buckets;
            format!("; doze {distance}, to bucket {next}")
        }
        Answer::Found => "; found".to_string(),
        Answer::Absent => "; absent".to_string(),
        Answer::Refused(refusal) => format!("refused by {}", refusal.number),
    }
}
