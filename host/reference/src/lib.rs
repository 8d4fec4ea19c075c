//! Tare lists on air, written straight from document 01: a list is built into
//! a cycle of buckets, a cycle is read back into its list, a listener picks
//! out the lines of one tag, and a lookup runs it over an image. From document
//! 02: a cycle's figures are told before there is a list (C-11), the list may
//! change between cycles (C-12), its numbers may have leading zeros (C-13), lines
//! arrive in it or are taken out of it (C-14), buckets may be lost (C-16), and the
//! mean wait is told (C-17).
#![forbid(unsafe_code)]

pub mod air;
mod bucket;
mod build;
mod change;
pub mod columns;
mod cycle;
pub mod generate;
pub mod line;
mod listener;
pub mod literal;
mod lookup;
mod mean;
mod print;
mod read_back;
mod size;
pub mod skips;
pub mod waits;
pub mod yards;
pub mod zeros;

pub use bucket::{line, BUCKET};
pub use build::build;
pub use change::{arrive, take_out, Changed};
pub use line::{blanked, LINE};
pub use listener::{Answer, Listener};
pub use lookup::{lookup, Looked};
pub use mean::{mean, Mean};
pub use read_back::read_back;
pub use size::{size, Size};

/// Settings: n, p, layout, copies.
pub type Settings = [u64; 4];

/// Number and place of "Refused inputs".
#[derive(Clone, Copy, Debug, PartialEq, Eq)]
pub struct Refusal {
    pub number: u64,
    pub place: u64,
}

impl Refusal {
    /// "place 0 unless named".
    pub(crate) fn of(number: u64) -> Refusal {
        Refusal { number, place: 0 }
    }
}
