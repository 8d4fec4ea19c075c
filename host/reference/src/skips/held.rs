//! A list in its buffer, changed by calls, and its lines kept apart.

use super::{Call, Given};
use crate::line::LINE;
use crate::literal::list_figures;
use crate::yards::image_of;
use crate::{size, Changed, Refusal, Settings};

/// Room for the image of a short list.
pub const ROOM: usize = 240 * 200;

/// A list at the front of its buffer.
#[derive(Clone)]
pub struct Held {
    pub buffer: Vec<u8>,
    pub lines: u64,
}

impl Held {
    /// A list with so many bytes behind it.
    pub fn new(list: &[u8], free: usize) -> Held {
        let behind = (0..free).map(|i| (7 + 31 * i) as u8);
        let buffer = list.iter().copied().chain(behind).collect();
        Held { buffer, lines: (list.len() / LINE) as u64 }
    }

    pub fn list(&self) -> &[u8] {
        &self.buffer[..LINE * self.lines as usize]
    }

    /// One change: counts and image "equal what building the changed list afresh
    /// gives", and a refusal leaves each byte as it was.
    pub fn change(
        &mut self,
        call: Call,
        line: &[u8],
        [n, p, layout, copies]: Settings,
        room: usize,
    ) -> Result<Changed, Refusal> {
        let before = self.buffer.clone();
        let settings = [n, p, layout, copies];
        let made = call(&mut self.buffer, Given { lines: self.lines, line, settings, room });
        if let Err(refusal) = made {
            assert!(self.buffer == before, "{refusal:?}");
        }
        let (changed, image) = made?;
        self.lines = changed.lines;
        let fresh = size(changed.lines, n, p, layout, copies, 0).unwrap();
        assert_eq!((changed.d, changed.k, changed.n), (fresh.d, fresh.k, fresh.n));
        assert!(image == image_of(self.list(), settings));
        Ok(changed)
    }

    /// The same with settings and room for any short list.
    pub fn short(&mut self, call: Call, line: &[u8]) -> Result<Changed, Refusal> {
        self.change(call, line, [2, 1, 1, 0], ROOM)
    }
}

/// A line's four numbers.
pub fn numbers(line: &[u8]) -> [u64; 4] {
    list_figures(&line[..LINE - 1]).unwrap()
}

/// Where a line goes among others: "behind all lines of its tag".
pub fn behind_tag<L: AsRef<[u8]>>(line: &[u8], lines: &[L]) -> usize {
    lines.iter().filter(|other| numbers(other.as_ref())[0] <= numbers(line)[0]).count()
}

/// A list's lines, the most that there were, and what its buffer held at first.
pub struct Model {
    lines: Vec<Vec<u8>>,
    most: usize,
    first: Vec<u8>,
}

impl Model {
    /// The empty list in a buffer.
    pub fn new(buffer: &[u8]) -> Model {
        Model { lines: Vec::new(), most: 0, first: buffer.to_vec() }
    }

    pub fn arrive(&mut self, line: &[u8]) -> Result<(), Refusal> {
        if self.first.len() / LINE == self.lines.len() {
            return Err(Refusal::of(16));
        }
        self.lines.insert(behind_tag(line, &self.lines), line.to_vec());
        self.most = self.most.max(self.lines.len());
        Ok(())
    }

    pub fn take_out(&mut self, line: &[u8]) -> Result<(), Refusal> {
        let place = self.lines.iter().position(|other| numbers(other) == numbers(line));
        self.lines.remove(place.ok_or(Refusal::of(15))?);
        Ok(())
    }

    /// The lines, blanks in the places that others had, and the rest as it was.
    pub fn buffer(&self) -> Vec<u8> {
        let mut buffer = self.lines.concat();
        buffer.resize(LINE * self.most, b' ');
        buffer.extend(&self.first[LINE * self.most..]);
        buffer
    }
}
