//! Which pointer of a bucket a listener follows, and what it then awaits.

use pansdaoh::Answer;

use crate::bucket::{Bucket, FOLLOW_ON, TO_SEGMENT};
use crate::hearing::Heard;

/// A pointer by which a listener dozes. Pairs and entries count from 0.
pub enum Pointer {
    Segment,
    Pair(usize),
    Entry(usize),
    FollowOn,
}

impl Pointer {
    /// The pointer that leads a listener for this tag on from a bucket, if it dozes.
    pub fn followed(tag: u64, heard: &Heard) -> Option<Pointer> {
        let Answer::Doze(distance) = heard.answer else {
            return None;
        };
        let bucket = Bucket(heard.bucket);
        let (pointer, printed) = if heard.tune_in {
            (Pointer::Segment, bucket.number(TO_SEGMENT))
        } else if bucket.is_data() {
            (Pointer::FollowOn, bucket.number(FOLLOW_ON))
        } else {
            let pairs = (0..bucket.pairs()?).map(|i| (i, bucket.pair(i)));
            let mut pairs = pairs.filter(|&(i, (pair, _))| leads(i, pair, tag));
            let mut entries = (0..bucket.count()?).map(|i| (i, bucket.entry(i)));
            match pairs.next() {
                Some((i, (_, distance))) => (Pointer::Pair(i), distance),
                None => {
                    let entry = entries.find(|&(_, (entry, _))| entry >= Some(tag));
                    entry.map(|(i, (_, distance))| (Pointer::Entry(i), distance))?
                }
            }
        };
        // Words only for what the library did.
        (printed == Some(distance)).then_some(pointer)
    }

    /// "Awaited: after a pointer or pair, an index bucket; after an entry, either; after a follow-on, data."
    fn awaits(&self) -> &'static str {
        match self {
            Pointer::Segment | Pointer::Pair(_) => "an index bucket",
            Pointer::Entry(_) => "a bucket",
            Pointer::FollowOn => "a data bucket",
        }
    }
}

/// "if the first pair's tag is printed and our tag is at most it, .. the first later pair whose tag
/// is below ours".
fn leads(i: usize, pair: Option<u64>, tag: u64) -> bool {
    match i {
        0 => pair.is_some_and(|pair| tag <= pair),
        _ => pair.is_some_and(|pair| pair < tag),
    }
}

/// What a listener awaits behind a bucket from which it dozes.
pub fn awaited(tag: u64, heard: &Heard) -> Option<String> {
    let Answer::Doze(distance) = heard.answer else {
        return None;
    };
    let pointer = Pointer::followed(tag, heard)?;
    let bucket = Bucket(heard.bucket);
    let (position, cycle) = (bucket.position()? + distance, bucket.cycle()?);
    let kind = pointer.awaits();
    // "Past a start the awaited position is 0 and N may be new."
    Some(match position < cycle {
        true => format!("{kind} with position {position} and N {cycle}"),
        false => format!("{kind} with position 0"),
    })
}

/// What came instead.
pub fn came(bucket: Bucket) -> Option<String> {
    let (article, position, cycle) = (bucket.article(), bucket.position()?, bucket.cycle()?);
    Some(format!("{article} bucket with position {position} and N {cycle}"))
}
