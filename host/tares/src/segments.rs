//! Which index segment a bucket stands in.

use pansdaoh::BUCKET;

use crate::bucket::{Bucket, TO_SEGMENT};

pub struct Segments {
    starts: Vec<usize>,
    /// Where the pointers to the next segment no longer lead on.
    end: usize,
}

impl Segments {
    /// The segments from bucket 0 on, each found by the pointer in the first bucket of the one before.
    pub fn of(image: &[u8]) -> Segments {
        let buckets = image.len() / BUCKET;
        let mut starts = Vec::new();
        let mut end = 0;
        while end < buckets {
            let Some(distance) = Bucket::at(image, end).number(TO_SEGMENT).filter(|&d| d > 0)
            else {
                break;
            };
            starts.push(end);
            end += distance as usize;
        }
        Segments { starts, end }
    }

    /// The segment of a bucket, from 0, if pointers lead there.
    pub fn at(&self, place: usize) -> Option<usize> {
        let started = self.starts.partition_point(|&start| start <= place);
        started.checked_sub(1).filter(|_| place < self.end)
    }
}

/// A bucket with its letter and segment.
pub fn title(place: usize, bucket: Bucket, segments: &Segments) -> String {
    let kind = bucket.kind();
    match segments.at(place) {
        Some(segment) => format!("bucket {place} ({kind}, segment {segment})"),
        None => format!("bucket {place} ({kind})"),
    }
}
