//! "A list line": tag, tare, material code, weighing number, newline.

use crate::columns::{at_mut, blank_zeros, is_number, read, read_digits, BLANK};

/// Bytes of a list line, the newline included.
pub const LINE: usize = 27;
/// Columns of a line without its newline, as a data bucket holds it.
pub const FIGURES: usize = 26;
/// Columns of a tag.
pub const TAG: usize = 10;
/// The largest tag.
pub const MAX_TAG: u64 = 4_294_967_295;
/// The most lines of a list.
pub const MAX_LINES: u64 = 40_000;

/// The tag of a printed line, or None if the line is misprinted.
#[inline(always)]
pub fn tag_of(figures: &[u8; FIGURES]) -> Option<u64> {
    let tag = tag(figures)?;
    // A tare of at most 99,999 leaves its first column blank.
    let rest = (figures[10] == BLANK)
        & is_number::<6>(figures, 10)
        & is_number::<4>(figures, 16)
        & is_number::<6>(figures, 20);
    rest.then_some(tag)
}

/// The tag printed in the first ten columns, if it is in its range.
#[inline(always)]
pub fn tag(bytes: &[u8]) -> Option<u64> {
    if bytes[..2] == *b"  " {
        return read::<8>(bytes, 2);
    }
    // More than eight digits: the first one or two are no 0.
    let high = read::<2>(bytes, 0)?;
    let tag = high * 100_000_000 + read_digits(bytes, 2)?;
    (high > 0 && tag <= MAX_TAG).then_some(tag)
}

/// "The list with its leading zeros made blank" (C-13): field by field, where a
/// field is one that a list line may have. Other bytes stay, and so does a list
/// whose length is no multiple of 27.
pub fn blanked(list: &[u8]) -> Vec<u8> {
    let mut blanked = list.to_vec();
    if list.len().is_multiple_of(LINE) {
        blanked.chunks_exact_mut(LINE).for_each(|line| blank_line(at_mut(line, 0)));
    }
    blanked
}

/// Makes the leading zeros of a line blank.
#[inline(always)]
fn blank_line(figures: &mut [u8; FIGURES]) {
    blank_tag(figures);
    blank_zeros::<6>(figures, 10);
    blank_zeros::<4>(figures, 16);
    blank_zeros::<6>(figures, 20);
}

/// Makes the leading zeros of a tag blank: its first two columns, then the
/// other eight if nothing is left before them.
#[inline(always)]
fn blank_tag(figures: &mut [u8; FIGURES]) {
    if read_digits(figures, 2).is_some() {
        match figures[..2] {
            [BLANK | b'0', b'0'] => figures[..2].fill(BLANK),
            _ => blank_zeros::<2>(figures, 0),
        }
    }
    if figures[..2] == [BLANK; 2] {
        blank_zeros::<8>(figures, 2);
    }
}
