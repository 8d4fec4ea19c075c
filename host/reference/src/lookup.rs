//! "A lookup runs the listener over a lent image."

use crate::bucket::{BUCKET, LINES};
use crate::line::{FIGURES, LINE};
use crate::listener::{Answer, Listener};
use crate::read_back::check_image;
use crate::Refusal;

/// What a lookup returns.
#[derive(Clone, Copy, Debug, PartialEq, Eq)]
pub struct Looked {
    pub found: bool,
    pub heard: u64,
    pub elapsed: u64,
    pub lines: u64,
}

/// Looks a tag up from a tune-in bucket. "A lookup: 11, 12, the steps' own, 7."
/// The lines are counted first; once there is room, the data buckets are
/// stepped through again and their lines written.
pub fn lookup(image: &[u8], tag: u64, tune_in: u64, out: &mut [u8]) -> Result<Looked, Refusal> {
    let buckets = check_image(image)?;
    if tune_in >= buckets {
        return Err(Refusal::of(12));
    }
    let mut hearing = Hearing { image, listener: Listener::new(tag), place: tune_in };
    let mut first_match = None;
    let mut lines = 0;
    loop {
        let before = hearing;
        let (answer, _, count) = hearing.step();
        if count > 0 && lines == 0 {
            first_match = Some(before);
        }
        lines += count;
        let found = match answer {
            Answer::Doze(_) => continue,
            Answer::Found => true,
            Answer::Absent => false,
            // "in a lookup's 8 to 10 the image position of the bucket just heard"
            Answer::Refused(number) => return Err(Refusal { number, place: before.place }),
        };
        // "On absent it writes nothing and returns 0 lines".
        if !found {
            lines = 0;
            first_match = None;
        }
        let room = out.get_mut(..LINE * lines as usize).ok_or(Refusal::of(7))?;
        if let Some(hearing) = first_match {
            hearing.write(room);
        }
        let (heard, elapsed) = (hearing.listener.heard(), hearing.listener.elapsed());
        return Ok(Looked { found, heard, elapsed, lines });
    }
}

/// A listener and the image position of its next bucket.
#[derive(Clone, Copy)]
struct Hearing<'a> {
    image: &'a [u8],
    listener: Listener,
    place: u64,
}

impl<'a> Hearing<'a> {
    fn bucket(&self) -> &'a [u8] {
        &self.image[BUCKET * self.place as usize..][..BUCKET]
    }

    /// One step; the image is "repeated by its own count of buckets".
    fn step(&mut self) -> (Answer, u64, u64) {
        let (listener, answer, first, count) = self.listener.step(self.bucket());
        self.listener = listener;
        if let Answer::Doze(distance) = answer {
            self.place = (self.place + distance) % (self.image.len() / BUCKET) as u64;
        }
        (answer, first, count)
    }

    /// Writes the matching lines, "each as a 27-byte list line".
    fn write(mut self, room: &mut [u8]) {
        let mut rest = room.chunks_exact_mut(LINE);
        loop {
            let bucket = self.bucket();
            let (answer, first, count) = self.step();
            let lines = bucket[LINES..].chunks_exact(FIGURES).skip(first as usize);
            for (figures, line) in lines.take(count as usize).zip(rest.by_ref()) {
                line[..FIGURES].copy_from_slice(figures);
                line[FIGURES] = b'\n';
            }
            let Answer::Doze(_) = answer else {
                return;
            };
        }
    }
}
