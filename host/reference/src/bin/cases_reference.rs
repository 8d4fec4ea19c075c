//! Answers a stream of requests, read from standard input to its end.

use std::io::{Read, Write};

use reference::{arrive, build, lookup, mean, read_back, size, take_out};
use reference::{Answer, Changed, Listener, Looked, Mean, Refusal, Settings, Size};

const HEAD: usize = 74;
const COLUMNS: usize = 12;

/// The numbers of a head, the last one its body's length.
type Numbers = [u64; 6];

fn main() -> std::io::Result<()> {
    let mut input = Vec::new();
    std::io::stdin().read_to_end(&mut input)?;
    let mut answers = String::new();
    let mut rest = &input[..];
    while !rest.is_empty() {
        let (head, tail) = rest.split_at(HEAD);
        let numbers: Numbers = std::array::from_fn(|i| number(&head[1 + COLUMNS * i..][..COLUMNS]));
        let (body, tail) = tail.split_at(numbers[5] as usize);
        answers += &answer(head[0], numbers, body);
        rest = tail;
    }
    std::io::stdout().write_all(answers.as_bytes())
}

fn number(columns: &[u8]) -> u64 {
    std::str::from_utf8(columns).unwrap().trim().parse().unwrap()
}

/// A lent buffer before a call.
fn lent(length: u64) -> Vec<u8> {
    (0..length).map(|i| (7 + 31 * i) as u8).collect()
}

/// The hash over a lent buffer after a call.
fn hash(buffer: &[u8]) -> u64 {
    buffer.iter().fold(0, |hash, &byte| (hash * 257 + byte as u64 + 1) % 2_147_483_647)
}

fn answer(letter: u8, numbers: Numbers, body: &[u8]) -> String {
    match letter {
        b'B' => counted(build, numbers, body),
        b'R' => counted(read_back, numbers, body),
        b'L' => looked(numbers, body),
        b'H' => heard(numbers[0], body.chunks(numbers[1] as usize).map(Some)),
        b'Q' => heard(numbers[0], with_losses(body, numbers[1] as usize)),
        b'F' => sized(numbers, body),
        b'A' => changed(arrive, numbers, body),
        b'T' => changed(take_out, numbers, body),
        b'M' => averaged(numbers, body),
        _ => panic!("no such request: {}", letter as char),
    }
}

/// Building and reading back, which return a count.
type Counting = fn(&[u8], u64, u64, u64, u64, &mut [u8]) -> Result<u64, Refusal>;

fn counted(call: Counting, [n, p, layout, copies, length, _]: Numbers, body: &[u8]) -> String {
    let mut buffer = lent(length);
    let text = match call(body, n, p, layout, copies, &mut buffer) {
        Ok(count) => format!("0 0 {count}"),
        Err(Refusal { number, place }) => format!("{number} {place} 0"),
    };
    format!("{text} {}\n", hash(&buffer))
}

fn looked([tag, tune_in, length, ..]: Numbers, body: &[u8]) -> String {
    let mut buffer = lent(length);
    let text = match lookup(body, tag, tune_in, &mut buffer) {
        Ok(Looked { found, heard, elapsed, lines }) => {
            let end = if found { 1 } else { 2 };
            format!("0 0 {end} {heard} {elapsed} {lines}")
        }
        Err(Refusal { number, place }) => format!("{number} {place} 0 0 0 0"),
    };
    format!("{text} {}\n", hash(&buffer))
}

/// The body of Q: "for each bucket the letter B and its bytes, or the letter X
/// alone for one lost", which is None.
fn with_losses(mut body: &[u8], length: usize) -> impl Iterator<Item = Option<&[u8]>> {
    std::iter::from_fn(move || {
        let (letter, rest) = body.split_first()?;
        let bytes = match letter {
            b'B' => length.min(rest.len()),
            b'X' => 0,
            _ => panic!("no such bucket: {}", *letter as char),
        };
        let (bucket, rest) = rest.split_at(bytes);
        body = rest;
        Some((*letter == b'B').then_some(bucket))
    })
}

/// One listener given buckets in turn, None for one lost.
fn heard<'a>(tag: u64, buckets: impl Iterator<Item = Option<&'a [u8]>>) -> String {
    let mut listener = Listener::new(tag);
    let mut answers = String::new();
    for bucket in buckets {
        let (next, answer, first, count) = match bucket {
            Some(bytes) => listener.step(bytes),
            None => listener.lost(),
        };
        listener = next;
        let (kind, value) = match answer {
            Answer::Doze(distance) => (1, distance),
            Answer::Found => (2, 0),
            Answer::Absent => (3, 0),
            Answer::Refused(number) => (4, number),
        };
        let (heard, elapsed) = (listener.heard(), listener.elapsed());
        answers += &format!("{kind} {value} {first} {count} {heard} {elapsed}\n");
    }
    answers
}

fn sized([n, p, layout, copies, lines, _]: Numbers, body: &[u8]) -> String {
    match size(lines, n, p, layout, copies, number(body)) {
        Ok(Size { k, d, n, bytes, heard }) => format!("0 0 {k} {d} {n} {bytes} {heard}\n"),
        Err(Refusal { number, place }) => format!("{number} {place} 0 0 0 0 0\n"),
    }
}

fn averaged([n, p, layout, copies, ..]: Numbers, body: &[u8]) -> String {
    match mean(body, n, p, layout, copies) {
        Ok(Mean { sum, divisor, quotient, remainder }) => {
            format!("0 0 {sum} {divisor} {quotient} {remainder}\n")
        }
        Err(Refusal { number, place }) => format!("{number} {place} 0 0 0 0\n"),
    }
}

/// A line arrives or is taken out.
type Changing = fn(&mut [u8], u64, &[u8], Settings, &mut [u8]) -> Result<Changed, Refusal>;

/// The body has the number of lines, the length of the list's buffer and that of
/// the given line; then the line; then what the list's buffer holds.
fn changed(call: Changing, [n, p, layout, copies, length, _]: Numbers, body: &[u8]) -> String {
    let (front, rest) = body.split_at(3 * COLUMNS);
    let [lines, list_length, line_length] =
        std::array::from_fn(|i| number(&front[COLUMNS * i..][..COLUMNS]));
    let (line, list) = rest.split_at(line_length as usize);
    assert_eq!(list.len() as u64, list_length);
    let (mut list, mut cycle) = (list.to_vec(), lent(length));
    let text = match call(&mut list, lines, line, [n, p, layout, copies], &mut cycle) {
        Ok(Changed { lines, d, k, n }) => format!("0 0 {lines} {d} {k} {n}"),
        Err(Refusal { number, place }) => format!("{number} {place} 0 0 0 0"),
    };
    format!("{text} {} {}\n", hash(&list), hash(&cycle))
}
