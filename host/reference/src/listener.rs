//! "The listener": a state given with each bucket and handed back.

use crate::bucket::{Bucket, BUCKET};

/// "A count that would pass 4,294,967,295 stops there" (C-16).
const COUNT_MOST: u64 = 4_294_967_295;

/// The answer to one bucket.
#[derive(Clone, Copy, Debug, PartialEq, Eq)]
pub enum Answer {
    /// Doze by so many buckets.
    Doze(u64),
    Found,
    Absent,
    /// Refused by this number.
    Refused(u64),
}

#[derive(Clone, Copy, Debug, PartialEq, Eq)]
pub struct Listener {
    tag: u64,
    heard: u64,
    elapsed: u64,
    state: State,
}

#[derive(Clone, Copy, Debug, PartialEq, Eq)]
enum State {
    TuneIn,
    Dozing(Awaited),
    Ended,
}

/// What the next bucket must show, and the doze before it.
#[derive(Clone, Copy, Debug, PartialEq, Eq)]
struct Awaited {
    letter: Letter,
    position: u64,
    /// N, None at a cycle's start, where it "may be new".
    buckets: Option<u64>,
    doze: u64,
    /// A cycle's start lies between tune-in and that bucket, or it is one.
    past_start: bool,
}

/// "after a pointer or pair, an index bucket; after an entry, either; after a
/// follow-on, data".
#[derive(Clone, Copy, Debug, PartialEq, Eq)]
enum Letter {
    Index,
    Either,
    Data,
}

/// What a bucket tells the listener to do.
enum Move {
    Doze(u64, Letter),
    Found,
    Absent,
}

impl Listener {
    /// "starting it with a tag, both counts 0".
    pub fn new(tag: u64) -> Listener {
        Listener { tag, heard: 0, elapsed: 0, state: State::TuneIn }
    }

    /// The same listener with other counts, for tests.
    pub fn with_counts(self, heard: u64, elapsed: u64) -> Listener {
        Listener { heard, elapsed, ..self }
    }

    /// "Heard counts buckets taken".
    pub fn heard(self) -> u64 {
        self.heard
    }

    /// "elapsed counts from tune-in to the last taken, both in".
    pub fn elapsed(self) -> u64 {
        self.elapsed
    }

    /// Takes one bucket. Returns the next listener, the answer, and the first
    /// and number of the bucket's lines that match.
    pub fn step(self, bucket: &[u8]) -> (Listener, Answer, u64, u64) {
        if self.state == State::Ended {
            return (self, Answer::Refused(14), 0, 0);
        }
        self.hear(bucket).unwrap_or_else(|number| {
            // "the listener handed back is ended, and the counts it carries
            // do not include that bucket"
            let ended = Listener { state: State::Ended, ..self };
            (ended, Answer::Refused(number), 0, 0)
        })
    }

    /// Takes a bucket "handed in as lost, without bytes" (C-16). Returns what a
    /// step does.
    pub fn lost(self) -> (Listener, Answer, u64, u64) {
        // "an ended listener answers a lost one by 14"
        if self.state == State::Ended {
            return (self, Answer::Refused(14), 0, 0);
        }
        // "the listener answers doze by 1, and the display then starts over with
        // the next bucket as its tune-in, both counts running on from the first"
        (self.counted(State::TuneIn), Answer::Doze(1), 0, 0)
    }

    /// This listener with the bucket at hand in its counts. "A lost bucket counts
    /// as heard."
    #[inline(always)]
    fn counted(self, state: State) -> Listener {
        let doze = match self.state {
            State::Dozing(awaited) => awaited.doze,
            _ => 1,
        };
        let heard = self.heard.saturating_add(1).min(COUNT_MOST);
        let elapsed = self.elapsed.saturating_add(doze).min(COUNT_MOST);
        Listener { tag: self.tag, heard, elapsed, state }
    }

    /// The tests 8, 9 and 10 in order, else the step.
    #[inline(always)]
    fn hear(self, bytes: &[u8]) -> Result<(Listener, Answer, u64, u64), u64> {
        let bytes: &[u8; BUCKET] = bytes.try_into().map_err(|_| 8u64)?;
        let mut bucket = Bucket::default();
        bucket.read(bytes).ok_or(8u64)?;
        self.take(&bucket)
    }

    /// The same for a bucket that was read: 9 and 10, else the step.
    #[inline(always)]
    pub(crate) fn take(self, bucket: &Bucket) -> Result<(Listener, Answer, u64, u64), u64> {
        let past_start = match self.state {
            State::Dozing(awaited) => {
                if !awaited.is(bucket) {
                    return Err(9);
                }
                awaited.past_start
            }
            _ => false,
        };
        let (chosen, first, count) = if self.state == State::TuneIn {
            // "Tune-in bucket: doze to the next segment, even if this one
            // starts a segment."
            (Move::Doze(bucket.to_segment, Letter::Index), 0, 0)
        } else if bucket.is_index {
            (choose(self.tag, bucket), 0, 0)
        } else {
            collect(self.tag, bucket)
        };
        let mut next = self.counted(State::Ended);
        let answer = match chosen {
            Move::Doze(doze, letter) => {
                let to_start = doze == bucket.to_cycle;
                // 10: "the next bucket lies past the cycle after tune-in's"
                if to_start && past_start {
                    return Err(10);
                }
                // "Past a start the awaited position is 0 and N may be new."
                let position = if to_start { 0 } else { bucket.position + doze };
                let buckets = (!to_start).then_some(bucket.buckets());
                let past_start = to_start || past_start;
                next.state = State::Dozing(Awaited { letter, position, buckets, doze, past_start });
                Answer::Doze(doze)
            }
            Move::Found => Answer::Found,
            Move::Absent => Answer::Absent,
        };
        Ok((next, answer, first, count))
    }
}

impl Awaited {
    /// 9: "letter, position or N not as awaited".
    #[inline(always)]
    fn is(&self, bucket: &Bucket) -> bool {
        let wrong = if bucket.is_index { Letter::Data } else { Letter::Index };
        self.letter != wrong
            && bucket.position == self.position
            && self.buckets.is_none_or(|buckets| bucket.buckets() == buckets)
    }
}

/// The step on an index bucket.
#[inline(always)]
fn choose(tag: u64, bucket: &Bucket) -> Move {
    // "if the first pair's tag is printed and our tag is at most it, follow
    // the pair. Else follow the first later pair whose tag is below ours."
    if let [first, later @ ..] = bucket.pairs() {
        if !bucket.first_blank && tag <= first.tag {
            return Move::Doze(first.distance, Letter::Index);
        }
        for pair in later {
            if pair.tag < tag {
                return Move::Doze(pair.distance, Letter::Index);
            }
        }
    }
    // "Else the first entry whose tag is at least ours. Else absent."
    for entry in bucket.entries() {
        if entry.tag >= tag {
            return Move::Doze(entry.distance, Letter::Either);
        }
    }
    Move::Absent
}

/// The step on a data bucket, and the lines of our tag.
#[inline(always)]
fn collect(tag: u64, bucket: &Bucket) -> (Move, u64, u64) {
    let tags = bucket.tags();
    let first = tags.iter().take_while(|&&t| t < tag).count();
    let count = tags[first..].iter().take_while(|&&t| t == tag).count();
    // "None: absent."
    if count == 0 {
        return (Move::Absent, 0, 0);
    }
    // "If the last line is ours and the follow-on is not 0, doze by it."
    let chosen = if first + count == tags.len() && bucket.follow_on != 0 {
        Move::Doze(bucket.follow_on, Letter::Data)
    } else {
        Move::Found
    };
    (chosen, first as u64, count as u64)
}
