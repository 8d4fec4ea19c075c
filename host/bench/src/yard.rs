//! The input of a measurement, the same for both sides.

use std::hint::black_box;

use pansdaoh::MAX_LINES;
use reference::generate::{full_of_zeros, line as printed_line, list, yard_list, Random};
use reference::{blanked, line};

use crate::calls::{Calls, Reference, Settings, BUCKET, LINE};

/// In a list with figures of any length each tag is up to this much above the
/// one before it.
const SPREAD: u64 = 40;
/// Hearings of one round.
const HEARINGS: u64 = 2_000;
/// Sizings of one round.
const SIZINGS: u64 = 1_000;

/// A line arrives or is taken out.
type Change = fn(&mut [u8], u64, &[u8], Settings, &mut [u8]) -> u64;

/// A list, its cycle, and buffers to lend.
pub struct Yard {
    settings: Settings,
    list: Vec<u8>,
    image: Vec<u8>,
    list_out: Vec<u8>,
    image_out: Vec<u8>,
    /// Tags, of the list or one above, and tune-ins, spread over list and cycle.
    hearings: Vec<(u64, u64)>,
}

impl Yard {
    /// `figures`: `yard` for a list as a yard has it, `zeros` for that list with
    /// its columns full of zeros, `any` for one with figures of any length.
    pub fn new(figures: &str, settings: Settings, lines: u64) -> Yard {
        let random = &mut Random::new(1);
        let list = match figures {
            "yard" => yard_list(random, lines),
            "zeros" => full_of_zeros(&yard_list(random, lines)),
            "any" => list(random, lines, SPREAD),
            _ => panic!("no such figures: {figures}"),
        };
        let mut image = vec![0; 99_999 * BUCKET];
        let buckets = Reference::build(&list, settings, &mut image);
        image.truncate(buckets as usize * BUCKET);
        // Other bytes than 0, so that each page of the buffers is there; and room for
        // one more line, and for the buckets that it brings, or one line less.
        let list_out = vec![1; list.len() + LINE];
        let image_out = vec![1; image.len() + 20 * BUCKET];
        let printed = blanked(&list);
        let hearings = (0..HEARINGS)
            .map(|i| {
                let line = (i * 7_919 % lines) as usize;
                let tag = line::tag(&printed[LINE * line..][..10]).unwrap();
                (tag + i % 2, i * 104_729 % buckets)
            })
            .collect();
        Yard { settings, list, image, list_out, image_out, hearings }
    }

    /// One round of a call; returns the buckets it built, read or heard. `step`
    /// goes through whole hearings; a line arrives before all others, and the first
    /// is taken out; `line` reads the first line of each bucket. For `size` it returns
    /// how often the cycle was sized, for `judge` and `mean` the lines of the list.
    pub fn round<C: Calls>(&mut self, call: &str) -> u64 {
        let buckets = (self.image.len() / BUCKET) as u64;
        let lines = (self.list.len() / LINE) as u64;
        let image = black_box(&self.image[..]);
        let hearings = self.hearings.iter();
        match call {
            "build" => {
                C::build(black_box(&self.list), self.settings, black_box(&mut self.image_out))
            }
            "arrive" => {
                // In the longest list there is no place for one more.
                let from = if lines == MAX_LINES as u64 { LINE } else { 0 };
                self.change(C::arrive, from, printed_line(0, 8_000, 100, 100_000).into())
            }
            "take_out" => self.change(C::take_out, 0, self.list[..LINE].into()),
            "size" => (0..SIZINGS)
                .filter(|_| C::size(black_box(lines), self.settings) == buckets)
                .count() as u64,
            "judge" => {
                C::judge(black_box(&self.list), self.settings);
                lines
            }
            "mean" => {
                black_box(C::mean(black_box(&self.list), self.settings));
                lines
            }
            "line" => {
                let tags = image.chunks_exact(BUCKET).map(|bucket| C::line(bucket, 0));
                black_box(tags.fold(0, u64::max));
                buckets
            }
            "read_back" => {
                C::read_back(image, self.settings, black_box(&mut self.list_out));
                buckets
            }
            "step" => hearings.map(|&(tag, tune_in)| C::hearing(image, tag, tune_in)).sum(),
            "lookup" => {
                let out = black_box(&mut self.list_out[..]);
                hearings.map(|&(tag, tune_in)| C::lookup(image, tag, tune_in, out)).sum()
            }
            _ => panic!("no such call: {call}"),
        }
    }

    /// A change at the front of the list's lines from this byte on, which are copied to
    /// their buffer each time.
    fn change(&mut self, call: Change, from: usize, line: Vec<u8>) -> u64 {
        let length = self.list.len() - from;
        self.list_out[..length].copy_from_slice(&self.list[from..]);
        let (list, out) = (black_box(&mut self.list_out[..]), black_box(&mut self.image_out[..]));
        call(list, (length / LINE) as u64, black_box(&line), self.settings, out)
    }
}
