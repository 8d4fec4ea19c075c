//! "Refused inputs": number, place and condition.

use std::error::Error;
use std::fmt;

/// A refusal: its number, and its place, which is 0 unless the condition names
/// one.
#[derive(Clone, Copy, Debug, PartialEq, Eq)]
pub struct Refusal {
    pub number: u64,
    pub place: u64,
}

impl Refusal {
    /// The condition under which an input is refused by this number.
    pub fn condition(&self) -> &'static str {
        match self.number {
            1 => "n, p or layout outside its range",
            2 => "list length no multiple of 27, or over 40,000 lines",
            3 => "line misprinted",
            4 => "tag falls",
            5 => "copies outside its range",
            6 => "over 99,999 buckets",
            7 => "output buffer too short",
            8 => "bucket not 240 bytes, or misprinted",
            9 => "letter, position or N not as awaited",
            10 => "the next bucket lies past the cycle after tune-in's",
            11 => "image empty, no multiple of 240, or over 99,999 buckets",
            12 => "tune-in at or past the image's bucket count",
            13 => "no list builds this image under these settings",
            14 => "bucket given to an ended listener",
            15 => "the line to take out is not in the list",
            16 => "the list has 40,000 lines or its buffer no place for one more",
            17 => "the list has no line",
            _ => "no such number",
        }
    }
}

impl fmt::Display for Refusal {
    fn fmt(&self, f: &mut fmt::Formatter) -> fmt::Result {
        let Refusal { number, place } = self;
        write!(f, "refused by {number}, place {place}: {}", self.condition())
    }
}

impl Error for Refusal {}
