//! The C functions, as `include/pansdaoh.h` declares them, and what makes each
//! call safe.
//!
//! The header asks that each pointer leads to as many bytes as the length says,
//! or to a state of eight numbers, that it is not NULL, and that what is written
//! overlaps nothing else. A slice's pointer is never NULL, and what a mutable
//! reference leads to no other reference does while it lives. No call keeps a
//! pointer.
#![allow(unsafe_code)]
#![deny(clippy::undocumented_unsafe_blocks)]

use super::{Answer, Change, Found, Line, Mean, Size, State, Step};

#[link(name = "pansdaoh", kind = "static")]
extern "C" {
    fn pansdaoh_build(
        list: *const u8,
        list_length: usize,
        n: u64,
        p: u64,
        layout: u64,
        copies: u64,
        out: *mut u8,
        out_length: usize,
    ) -> Answer;
    fn pansdaoh_size(lines: u64, n: u64, p: u64, layout: u64, copies: u64, c: u64) -> Size;
    fn pansdaoh_arrive(
        list: *mut u8,
        list_length: usize,
        lines: u64,
        line: *const u8,
        line_length: usize,
        n: u64,
        p: u64,
        layout: u64,
        copies: u64,
        out: *mut u8,
        out_length: usize,
    ) -> Change;
    fn pansdaoh_take_out(
        list: *mut u8,
        list_length: usize,
        lines: u64,
        line: *const u8,
        line_length: usize,
        n: u64,
        p: u64,
        layout: u64,
        copies: u64,
        out: *mut u8,
        out_length: usize,
    ) -> Change;
    fn pansdaoh_mean(
        list: *const u8,
        list_length: usize,
        n: u64,
        p: u64,
        layout: u64,
        copies: u64,
    ) -> Mean;
    fn pansdaoh_read_back(
        image: *const u8,
        image_length: usize,
        n: u64,
        p: u64,
        layout: u64,
        copies: u64,
        out: *mut u8,
        out_length: usize,
    ) -> Answer;
    fn pansdaoh_lookup(
        image: *const u8,
        image_length: usize,
        tag: u64,
        tune_in: u64,
        out: *mut u8,
        out_length: usize,
    ) -> Found;
    fn pansdaoh_start(state: *mut State, tag: u64);
    fn pansdaoh_step(state: *mut State, bucket: *const u8, bucket_length: usize) -> Step;
    fn pansdaoh_lost(state: *mut State) -> Step;
    fn pansdaoh_heard(state: *const State) -> u64;
    fn pansdaoh_elapsed(state: *const State) -> u64;
    fn pansdaoh_line(bucket: *const u8, bucket_length: usize, i: u64) -> Line;
}

/// Builds the cycle of a list, leading zeros made blank, into `out`; refuses by 1
/// to 7.
#[inline]
pub fn build(list: &[u8], n: u64, p: u64, layout: u64, copies: u64, out: &mut [u8]) -> Answer {
    let (room, length) = (out.as_mut_ptr(), out.len());
    // SAFETY: both slices lend their bytes for the call, and the mutable one overlaps nothing.
    unsafe { pansdaoh_build(list.as_ptr(), list.len(), n, p, layout, copies, room, length) }
}

/// The figures of a cycle of so many lines, for a tag in c data buckets; refuses
/// by 1, 2, 5 and 6.
#[inline]
pub fn size(lines: u64, n: u64, p: u64, layout: u64, copies: u64, c: u64) -> Size {
    // SAFETY: the call is given numbers alone, and any are answered.
    unsafe { pansdaoh_size(lines, n, p, layout, copies, c) }
}

/// A line arrives in the list of so many lines at the front of a buffer, and the
/// changed list's cycle is built into `out`, the settings being n, p, layout and
/// copies; refuses by 1 to 4, 16, then 5 to 7.
#[inline]
pub fn arrive(
    list: &mut [u8],
    lines: u64,
    line: &[u8],
    settings: [u64; 4],
    out: &mut [u8],
) -> Change {
    change(pansdaoh_arrive, list, lines, line, settings, out)
}

/// The first line with the given line's numbers is taken out, likewise; refuses by
/// 1 to 4, 15, then 5 to 7.
#[inline]
pub fn take_out(
    list: &mut [u8],
    lines: u64,
    line: &[u8],
    settings: [u64; 4],
    out: &mut [u8],
) -> Change {
    change(pansdaoh_take_out, list, lines, line, settings, out)
}

/// A C function that changes a list.
type Changing = unsafe extern "C" fn(
    *mut u8,
    usize,
    u64,
    *const u8,
    usize,
    u64,
    u64,
    u64,
    u64,
    *mut u8,
    usize,
) -> Change;

#[inline]
fn change(
    call: Changing,
    list: &mut [u8],
    lines: u64,
    line: &[u8],
    [n, p, layout, copies]: [u64; 4],
    out: &mut [u8],
) -> Change {
    let (held, held_length) = (list.as_mut_ptr(), list.len());
    let (given, given_length) = (line.as_ptr(), line.len());
    let (room, length) = (out.as_mut_ptr(), out.len());
    // SAFETY: the slices lend their bytes for the call, and the mutable ones overlap nothing.
    unsafe {
        call(held, held_length, lines, given, given_length, n, p, layout, copies, room, length)
    }
}

/// The mean wait over all tune-ins and all different tags of a list; refuses by 1
/// to 6, then by 17.
#[inline]
pub fn mean(list: &[u8], n: u64, p: u64, layout: u64, copies: u64) -> Mean {
    // SAFETY: the list is lent for the call and is only read.
    unsafe { pansdaoh_mean(list.as_ptr(), list.len(), n, p, layout, copies) }
}

/// Writes the list of an image, without leading zeros, into `out`; refuses by 1,
/// 11, 13 and 7.
#[inline]
pub fn read_back(image: &[u8], n: u64, p: u64, layout: u64, copies: u64, out: &mut [u8]) -> Answer {
    let (room, length) = (out.as_mut_ptr(), out.len());
    // SAFETY: both slices lend their bytes for the call, and the mutable one overlaps nothing.
    unsafe { pansdaoh_read_back(image.as_ptr(), image.len(), n, p, layout, copies, room, length) }
}

/// Looks a tag up from a tune-in bucket; refuses by 11, 12, 8 to 10 and 7.
#[inline]
pub fn lookup(image: &[u8], tag: u64, tune_in: u64, out: &mut [u8]) -> Found {
    let (room, length) = (out.as_mut_ptr(), out.len());
    // SAFETY: both slices lend their bytes for the call, and the mutable one overlaps nothing.
    unsafe { pansdaoh_lookup(image.as_ptr(), image.len(), tag, tune_in, room, length) }
}

/// Makes the state of a listener that waits for its tune-in bucket.
#[inline]
pub fn start(state: &mut State, tag: u64) {
    // SAFETY: the state is lent for the call, eight numbers that nothing else leads to.
    unsafe { pansdaoh_start(state, tag) }
}

/// Gives a listener one bucket; refuses by 14, 8, 9 and 10.
#[inline]
pub fn step(state: &mut State, bucket: &[u8]) -> Step {
    // SAFETY: state and bucket are lent for the call, and the state overlaps nothing.
    unsafe { pansdaoh_step(state, bucket.as_ptr(), bucket.len()) }
}

/// Gives a listener a bucket that was lost; refuses by 14.
#[inline]
pub fn lost(state: &mut State) -> Step {
    // SAFETY: the state is lent for the call, eight numbers that nothing else leads to.
    unsafe { pansdaoh_lost(state) }
}

/// The buckets that a listener has taken, lost ones counted.
#[inline]
pub fn heard(state: &State) -> u64 {
    // SAFETY: the state is lent for the call, eight numbers that are only read.
    unsafe { pansdaoh_heard(state) }
}

/// The buckets from the first taken to the last, both in, be they lost or not.
#[inline]
pub fn elapsed(state: &State) -> u64 {
    // SAFETY: the state is lent for the call, eight numbers that are only read.
    unsafe { pansdaoh_elapsed(state) }
}

/// Line i of a bucket as its four numbers; refuses by 8.
#[inline]
pub fn line(bucket: &[u8], i: u64) -> Line {
    // SAFETY: the bucket is lent for the call and is only read.
    unsafe { pansdaoh_line(bucket.as_ptr(), bucket.len(), i) }
}
