//! The library's listener taken over an image, bucket by bucket, as a lookup does, with
//! lost buckets too.

use std::ops::Range;

use pansdaoh::{Answer, Listener, BUCKET};

/// A hearing that has not ended gives the next bucket.
pub struct Hearing<'a> {
    image: &'a [u8],
    listener: Listener,
    place: usize,
    /// Places of buckets that are still to be lost, each when the listener wakes for it.
    lost: Vec<usize>,
    /// The bucket to come is a tune-in.
    tunes_in: bool,
    ended: bool,
}

/// A bucket that was heard, or lost.
pub struct Heard<'a> {
    /// Its place in the image.
    pub place: usize,
    pub bucket: &'a [u8],
    /// The radio lost it, so that the listener has no byte of it.
    pub lost: bool,
    /// It is the first bucket, or the first behind a lost one.
    pub tune_in: bool,
    pub answer: Answer,
    /// Which of its lines match.
    pub lines: Range<usize>,
    /// The listener's counts behind it.
    pub heard: u64,
    pub elapsed: u64,
}

impl Hearing<'_> {
    /// The image has whole buckets, more of them than `tune_in`.
    pub fn new(image: &[u8], tag: u64, tune_in: usize) -> Hearing<'_> {
        Hearing::with_lost(image, tag, tune_in, &[])
    }

    /// The same with lost buckets, by their places. One that is named twice is lost twice.
    pub fn with_lost<'a>(image: &'a [u8], tag: u64, tune_in: usize, lost: &[usize]) -> Hearing<'a> {
        let (listener, lost) = (Listener::new(tag), lost.to_vec());
        Hearing { image, listener, place: tune_in, lost, tunes_in: true, ended: false }
    }

    /// The places of buckets that are still to be lost.
    pub fn still_to_lose(&self) -> &[usize] {
        &self.lost
    }

    /// Whether the bucket at this place is lost.
    fn loses(&mut self, place: usize) -> bool {
        let named = self.lost.iter().position(|&lost| lost == place);
        named.map(|named| self.lost.remove(named)).is_some()
    }
}

impl<'a> Iterator for Hearing<'a> {
    type Item = Heard<'a>;

    fn next(&mut self) -> Option<Heard<'a>> {
        if self.ended {
            return None;
        }
        let place = self.place;
        let bucket = &self.image[BUCKET * place..][..BUCKET];
        let lost = self.loses(place);
        let tune_in = std::mem::replace(&mut self.tunes_in, lost);
        let (answer, lines) = match lost {
            true => (self.listener.lost(), 0..0),
            false => self.listener.step(bucket),
        };
        match answer {
            Answer::Doze(distance) => {
                // "repeated by its own count of buckets whatever N is printed"
                self.place = (place + distance as usize) % (self.image.len() / BUCKET);
            }
            _ => self.ended = true,
        }
        Some(Heard {
            place,
            bucket,
            lost,
            tune_in,
            answer,
            lines: lines.start as usize..lines.end as usize,
            heard: self.listener.heard(),
            elapsed: self.listener.elapsed(),
        })
    }
}
