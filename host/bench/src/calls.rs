//! The calls of both sides under one name. Each returns what it counts, or
//! panics if it is refused.

use pansdaoh::calls as library;

pub const BUCKET: usize = 240;
pub const LINE: usize = 27;

/// Settings: n, p, layout, copies.
pub type Settings = [u64; 4];

pub trait Calls {
    /// Returns the buckets built.
    fn build(list: &[u8], settings: Settings, out: &mut [u8]) -> u64;
    /// A line arrives in the list of so many lines at the front of a buffer; returns
    /// the buckets built.
    fn arrive(list: &mut [u8], lines: u64, line: &[u8], s: Settings, out: &mut [u8]) -> u64;
    /// A line is taken out of it, likewise.
    fn take_out(list: &mut [u8], lines: u64, line: &[u8], s: Settings, out: &mut [u8]) -> u64;
    /// Returns the buckets of the cycle of so many lines.
    fn size(lines: u64, settings: Settings) -> u64;
    /// Judges a list alone: builds it into no room at all.
    fn judge(list: &[u8], settings: Settings);
    /// Returns the quotient of the mean wait.
    fn mean(list: &[u8], settings: Settings) -> u64;
    /// Returns the lines read.
    fn read_back(image: &[u8], settings: Settings, out: &mut [u8]) -> u64;
    /// Returns the buckets heard.
    fn lookup(image: &[u8], tag: u64, tune_in: u64, out: &mut [u8]) -> u64;
    /// A hearing to its end, bucket by bucket; returns the buckets heard.
    fn hearing(image: &[u8], tag: u64, tune_in: u64) -> u64;
    /// Returns the tag of line i of a bucket, 0 if it has none.
    fn line(bucket: &[u8], i: u64) -> u64;
}

pub struct Library;

impl Calls for Library {
    fn build(list: &[u8], [n, p, layout, copies]: Settings, out: &mut [u8]) -> u64 {
        let answer = library::build(list, n, p, layout, copies, out);
        assert_eq!(answer.number, 0);
        answer.count
    }

    fn arrive(list: &mut [u8], lines: u64, line: &[u8], s: Settings, out: &mut [u8]) -> u64 {
        let change = library::arrive(list, lines, line, s, out);
        assert_eq!(change.number, 0);
        change.n
    }

    fn take_out(list: &mut [u8], lines: u64, line: &[u8], s: Settings, out: &mut [u8]) -> u64 {
        let change = library::take_out(list, lines, line, s, out);
        assert_eq!(change.number, 0);
        change.n
    }

    fn size(lines: u64, [n, p, layout, copies]: Settings) -> u64 {
        let size = library::size(lines, n, p, layout, copies, 1);
        assert_eq!(size.number, 0);
        size.n
    }

    fn judge(list: &[u8], [n, p, layout, copies]: Settings) {
        assert_eq!(library::build(list, n, p, layout, copies, &mut []).number, 7);
    }

    fn mean(list: &[u8], [n, p, layout, copies]: Settings) -> u64 {
        let mean = library::mean(list, n, p, layout, copies);
        assert_eq!(mean.number, 0);
        mean.quotient
    }

    fn read_back(image: &[u8], [n, p, layout, copies]: Settings, out: &mut [u8]) -> u64 {
        let answer = library::read_back(image, n, p, layout, copies, out);
        assert_eq!(answer.number, 0);
        answer.count
    }

    fn lookup(image: &[u8], tag: u64, tune_in: u64, out: &mut [u8]) -> u64 {
        let found = library::lookup(image, tag, tune_in, out);
        assert_eq!(found.number, 0);
        found.heard
    }

    fn hearing(image: &[u8], tag: u64, tune_in: u64) -> u64 {
        let buckets = image.len() / BUCKET;
        let mut state = Default::default();
        library::start(&mut state, tag);
        let mut place = tune_in as usize;
        loop {
            let step = library::step(&mut state, &image[BUCKET * place..][..BUCKET]);
            match step.answer {
                library::STEP_DOZE => place = (place + step.value as usize) % buckets,
                library::STEP_REFUSED => panic!("refused by {}", step.value),
                _ => return library::heard(&state),
            }
        }
    }

    fn line(bucket: &[u8], i: u64) -> u64 {
        let line = library::line(bucket, i);
        assert_eq!(line.number, 0);
        line.tag
    }
}

pub struct Reference;

impl Calls for Reference {
    fn build(list: &[u8], [n, p, layout, copies]: Settings, out: &mut [u8]) -> u64 {
        reference::build(list, n, p, layout, copies, out).unwrap()
    }

    fn arrive(list: &mut [u8], lines: u64, line: &[u8], s: Settings, out: &mut [u8]) -> u64 {
        reference::arrive(list, lines, line, s, out).unwrap().n
    }

    fn take_out(list: &mut [u8], lines: u64, line: &[u8], s: Settings, out: &mut [u8]) -> u64 {
        reference::take_out(list, lines, line, s, out).unwrap().n
    }

    fn size(lines: u64, [n, p, layout, copies]: Settings) -> u64 {
        reference::size(lines, n, p, layout, copies, 1).unwrap().n
    }

    fn judge(list: &[u8], [n, p, layout, copies]: Settings) {
        let refused = reference::build(list, n, p, layout, copies, &mut []).unwrap_err();
        assert_eq!(refused.number, 7);
    }

    fn mean(list: &[u8], [n, p, layout, copies]: Settings) -> u64 {
        reference::mean(list, n, p, layout, copies).unwrap().quotient
    }

    fn read_back(image: &[u8], [n, p, layout, copies]: Settings, out: &mut [u8]) -> u64 {
        reference::read_back(image, n, p, layout, copies, out).unwrap()
    }

    fn lookup(image: &[u8], tag: u64, tune_in: u64, out: &mut [u8]) -> u64 {
        reference::lookup(image, tag, tune_in, out).unwrap().heard
    }

    fn hearing(image: &[u8], tag: u64, tune_in: u64) -> u64 {
        let buckets = image.len() / BUCKET;
        let mut listener = reference::Listener::new(tag);
        let mut place = tune_in as usize;
        loop {
            let (next, answer, _, _) = listener.step(&image[BUCKET * place..][..BUCKET]);
            listener = next;
            match answer {
                reference::Answer::Doze(distance) => place = (place + distance as usize) % buckets,
                reference::Answer::Refused(number) => panic!("refused by {number}"),
                _ => return listener.heard(),
            }
        }
    }

    fn line(bucket: &[u8], i: u64) -> u64 {
        reference::line(bucket, i).unwrap().map_or(0, |[tag, ..]| tag)
    }
}
