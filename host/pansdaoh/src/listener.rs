//! "The listener": a state given with each bucket and handed back.

use std::ops::Range;

use crate::calls::{self, State, Step};
use crate::Refusal;

/// The answer to one bucket.
#[derive(Clone, Copy, Debug, PartialEq, Eq)]
pub enum Answer {
    /// Doze by so many buckets.
    Doze(u64),
    Found,
    Absent,
    Refused(Refusal),
}

/// A listener for one tag, given bucket after bucket. The list on air may change
/// from cycle to cycle: the lines, or the absence, are those of the list in whose
/// cycle the hearing ends.
#[derive(Clone, Copy, Debug, PartialEq, Eq)]
pub struct Listener {
    state: State,
}

impl Listener {
    /// A listener that waits for its tune-in bucket.
    pub fn new(tag: u64) -> Listener {
        let mut state = State::default();
        calls::start(&mut state, tag);
        Listener { state }
    }

    /// Takes one bucket: the answer, and which of the bucket's lines match.
    /// Lines taken before absent, a refusal or a lost bucket are void.
    pub fn step(&mut self, bucket: &[u8]) -> (Answer, Range<u64>) {
        let step = calls::step(&mut self.state, bucket);
        (answer(step), step.first..step.first + step.count)
    }

    /// Takes a bucket that the radio lost: doze by 1, or refused by 14 after the
    /// end. Lines taken before it are void, and the next bucket on air is the
    /// tune-in. The counts run on.
    pub fn lost(&mut self) -> Answer {
        answer(calls::lost(&mut self.state))
    }

    /// Buckets taken, lost ones counted; 4,294,967,295 if more.
    pub fn heard(&self) -> u64 {
        calls::heard(&self.state)
    }

    /// Buckets from the first taken to the last, both in, be they lost or not;
    /// 4,294,967,295 if more.
    pub fn elapsed(&self) -> u64 {
        calls::elapsed(&self.state)
    }
}

fn answer(step: Step) -> Answer {
    match step.answer {
        calls::STEP_DOZE => Answer::Doze(step.value),
        calls::STEP_FOUND => Answer::Found,
        calls::STEP_ABSENT => Answer::Absent,
        _ => Answer::Refused(Refusal { number: step.value, place: 0 }),
    }
}
