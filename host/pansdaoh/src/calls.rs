//! The calls of the static library, with the numbers they return.
//!
//! Each lent buffer is a slice. After a refusal it holds what it held before,
//! and bytes past the output always do.

/// A listener's state. Any content is answered; only [`start`], [`step`] and
/// [`lost`] give it a meaning.
pub type State = [u64; 8];

/// What building and reading back return.
#[repr(C)]
#[derive(Clone, Copy, Debug, PartialEq, Eq)]
pub struct Answer {
    /// 0, or the number of the refusal.
    pub number: u64,
    /// The refusal's place.
    pub place: u64,
    /// Buckets built or lines read; 0 if refused.
    pub count: u64,
}

/// What sizing returns. If refused, all behind the place is 0.
#[repr(C)]
#[derive(Clone, Copy, Debug, PartialEq, Eq)]
pub struct Size {
    /// 0, or the number of the refusal.
    pub number: u64,
    /// The refusal's place.
    pub place: u64,
    /// Index levels.
    pub k: u64,
    /// D, the data buckets.
    pub d: u64,
    /// N, the buckets of the cycle.
    pub n: u64,
    /// Bytes of the image.
    pub bytes: u64,
    /// The most buckets that a display hears.
    pub heard: u64,
}

/// What a change of a list returns. If refused, all behind the place is 0.
#[repr(C)]
#[derive(Clone, Copy, Debug, PartialEq, Eq)]
pub struct Change {
    /// 0, or the number of the refusal.
    pub number: u64,
    /// The refusal's place.
    pub place: u64,
    /// Lines of the changed list.
    pub lines: u64,
    /// D, the data buckets.
    pub d: u64,
    /// Index levels.
    pub k: u64,
    /// N, the buckets of the cycle.
    pub n: u64,
}

/// What averaging returns. If refused, all behind the place is 0.
#[repr(C)]
#[derive(Clone, Copy, Debug, PartialEq, Eq)]
pub struct Mean {
    /// 0, or the number of the refusal.
    pub number: u64,
    /// The refusal's place.
    pub place: u64,
    /// Elapsed of all hearings, added.
    pub sum: u64,
    /// How many hearings there are.
    pub divisor: u64,
    /// The sum divided by their number.
    pub quotient: u64,
    /// What is left of the sum.
    pub remainder: u64,
}

/// What a lookup returns.
#[repr(C)]
#[derive(Clone, Copy, Debug, PartialEq, Eq)]
pub struct Found {
    /// 0, or the number of the refusal.
    pub number: u64,
    /// The refusal's place.
    pub place: u64,
    /// [`FOUND`], [`ABSENT`], or 0 if refused.
    pub end: u64,
    pub heard: u64,
    pub elapsed: u64,
    pub lines: u64,
}

pub const FOUND: u64 = 1;
pub const ABSENT: u64 = 2;

/// What [`step`] and [`lost`] return.
#[repr(C)]
#[derive(Clone, Copy, Debug, PartialEq, Eq)]
pub struct Step {
    /// [`STEP_DOZE`], [`STEP_FOUND`], [`STEP_ABSENT`] or [`STEP_REFUSED`].
    pub answer: u64,
    /// The distance to doze or the number of the refusal, else 0.
    pub value: u64,
    /// The first of the bucket's lines that match, from 0.
    pub first: u64,
    /// How many match.
    pub count: u64,
}

pub const STEP_DOZE: u64 = 1;
pub const STEP_FOUND: u64 = 2;
pub const STEP_ABSENT: u64 = 3;
pub const STEP_REFUSED: u64 = 4;

/// What a bucket's line is.
#[repr(C)]
#[derive(Clone, Copy, Debug, PartialEq, Eq)]
pub struct Line {
    /// 0, or the number of the refusal.
    pub number: u64,
    /// The refusal's place.
    pub place: u64,
    /// 1 if the bucket has such a line, else 0 and so is all behind it.
    pub present: u64,
    pub tag: u64,
    pub tare: u64,
    pub code: u64,
    pub weighing: u64,
}

mod library;
pub use library::*;
