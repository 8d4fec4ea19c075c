//! Calls with lent buffers that show what was written.
#![allow(dead_code)]

use reference::skips::{Given, Made};
use reference::yards::Settings;
use reference::{build, lookup, read_back, Changed, Looked, Refusal};

/// A lent buffer before a call.
pub fn lent(length: usize) -> Vec<u8> {
    (0..length).map(|i| (7 + 31 * i) as u8).collect()
}

/// Builds into a lent buffer. Only the image is written, and on a refusal nothing.
pub fn build_into(list: &[u8], s: Settings, room: usize) -> Result<Vec<u8>, Refusal> {
    let mut buffer = lent(room);
    let result = build(list, s[0], s[1], s[2], s[3], &mut buffer);
    written(buffer, result.map(|buckets| 240 * buckets as usize))
}

/// Reads back into a lent buffer, likewise.
pub fn read_back_into(image: &[u8], s: Settings, room: usize) -> Result<Vec<u8>, Refusal> {
    let mut buffer = lent(room);
    let result = read_back(image, s[0], s[1], s[2], s[3], &mut buffer);
    written(buffer, result.map(|lines| 27 * lines as usize))
}

/// Looks up into a lent buffer, likewise: what is returned, and the lines.
pub fn lookup_into(
    image: &[u8],
    tag: u64,
    tune_in: u64,
    room: usize,
) -> Result<(Looked, Vec<u8>), Refusal> {
    let mut buffer = lent(room);
    let result = lookup(image, tag, tune_in, &mut buffer);
    let lines = written(buffer, result.map(|looked| 27 * looked.lines as usize))?;
    Ok((result?, lines))
}

/// A line arrives or is taken out.
pub type Changing = fn(&mut [u8], u64, &[u8], Settings, &mut [u8]) -> Result<Changed, Refusal>;

/// Changes a list in its buffer, its image into a lent one, likewise.
pub fn change_into(call: Changing, list: &mut [u8], given: Given) -> Made {
    let mut buffer = lent(given.room);
    let result = call(list, given.lines, given.line, given.settings, &mut buffer);
    let image = written(buffer, result.map(|changed| 240 * changed.n as usize))?;
    Ok((result?, image))
}

fn written(mut buffer: Vec<u8>, length: Result<usize, Refusal>) -> Result<Vec<u8>, Refusal> {
    let untouched = *length.as_ref().unwrap_or(&0);
    assert!(buffer[untouched..] == lent(buffer.len())[untouched..], "bytes behind were touched");
    buffer.truncate(untouched);
    length.map(|_| buffer)
}
