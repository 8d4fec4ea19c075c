//! The calls as Rust sees them: results, ranges and errors in the place of
//! numbers.

use std::error::Error;

use pansdaoh::{Answer, Listener, Refusal, BUCKET};
use reference::generate::list_of;
use reference::yards::image_of;

/// What a listener for the tag says from bucket 0 to its end: each data
/// bucket's lines that match, from and up to but without, heard and elapsed.
fn hearing(image: &[u8], tag: u64) -> (Answer, Vec<(u64, u64)>, u64, u64) {
    let (mut listener, mut place, mut matching) = (Listener::new(tag), 0, Vec::new());
    assert_eq!((listener.heard(), listener.elapsed()), (0, 0));
    loop {
        let bucket = &image[BUCKET * place..][..BUCKET];
        let (answer, lines) = listener.step(bucket);
        if bucket[24] == b'D' {
            matching.push((lines.start, lines.end));
        }
        match answer {
            Answer::Doze(distance) => place = (place + distance as usize) % (image.len() / BUCKET),
            end => return (end, matching, listener.heard(), listener.elapsed()),
        }
    }
}

/// Lines that match at a data bucket's front, in its middle, at its end and
/// throughout.
#[test]
fn matching_lines() {
    let image = image_of(&list_of(&[1, 2, 2, 5, 5, 5, 5, 5, 5, 7]), [2, 4, 1, 1]);
    for (tag, end, matching) in [
        (1, Answer::Found, vec![(0, 1)]),
        (2, Answer::Found, vec![(1, 3)]),
        (5, Answer::Found, vec![(3, 4), (0, 4), (0, 1)]),
        (7, Answer::Found, vec![(1, 2)]),
        (6, Answer::Absent, vec![(0, 0)]),
    ] {
        let (answer, lines, ..) = hearing(&image, tag);
        assert_eq!((answer, lines), (end, matching), "tag {tag}");
    }
}

#[test]
fn answers_and_counts() {
    let image = image_of(&list_of(&[3, 5, 5, 8, 9]), [2, 1, 1, 1]);
    assert_eq!(hearing(&image, 5), (Answer::Found, vec![(0, 1), (0, 1)], 7, 19));
    assert_eq!(hearing(&image, 10), (Answer::Absent, vec![], 2, 9));
    let refused = |number| (Answer::Refused(Refusal { number, place: 0 }), 0..0);
    let mut listener = Listener::new(6);
    assert_eq!(listener.step(b""), refused(8));
    assert_eq!(listener.step(&image[..BUCKET]), refused(14));
    assert_eq!((listener.heard(), listener.elapsed()), (0, 0));
}

/// The bucket with the tag's last line is lost: what was taken is void, the next
/// bucket is the tune-in, and the counts run on.
#[test]
fn lost_buckets() {
    let image = image_of(&list_of(&[3, 5, 5, 8, 9]), [2, 1, 1, 1]);
    let bucket = |position: usize| &image[BUCKET * position..][..BUCKET];
    let mut listener = Listener::new(5);
    let answers = [0, 8, 0, 1, 2].map(|position| listener.step(bucket(position)).0);
    assert_eq!(answers, [8, 4, 1, 1, 3].map(Answer::Doze));
    assert_eq!(listener.step(bucket(5)), (Answer::Doze(1), 0..1));
    assert_eq!((listener.heard(), listener.elapsed()), (6, 18));
    assert_eq!(listener.lost(), Answer::Doze(1));
    assert_eq!((listener.heard(), listener.elapsed()), (7, 19));
    let answers = [7, 8, 0, 1, 2].map(|position| listener.step(bucket(position)).0);
    assert_eq!(answers, [1, 4, 1, 1, 3].map(Answer::Doze));
    let answers = [5, 6].map(|position| listener.step(bucket(position)));
    assert_eq!(answers, [(Answer::Doze(1), 0..1), (Answer::Found, 0..1)]);
    let ended = listener;
    assert_eq!(listener.lost(), Answer::Refused(Refusal { number: 14, place: 0 }));
    assert_eq!(listener, ended);
    assert_eq!((listener.heard(), listener.elapsed()), (14, 31));
}

/// A refusal is an error that says number, place and condition.
#[test]
fn refusals_in_words() {
    let settings = pansdaoh::Settings { n: 2, p: 1, layout: 1, copies: 0 };
    let refused: Box<dyn Error> =
        pansdaoh::build(&list_of(&[5, 3]), settings, &mut []).unwrap_err().into();
    assert_eq!(refused.to_string(), "refused by 4, place 1: tag falls");
    let conditions: Vec<&str> =
        (1..=17).map(|number| Refusal { number, place: 0 }.condition()).collect();
    for (i, condition) in conditions.iter().enumerate() {
        assert!(!conditions[..i].contains(condition), "{condition}");
    }
    for number in [0, 18] {
        assert_eq!(Refusal { number, place: 0 }.condition(), "no such number");
    }
}
