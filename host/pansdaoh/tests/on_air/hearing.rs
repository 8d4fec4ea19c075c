//! What sizing, listeners, lookups and averaging answer.

use std::fmt::Write;

use pansdaoh::{build, lookup, mean, size, Answer, Listener, Looked, Mean, BUCKET, LINE};
use reference::generate::list_of;

use crate::drawing::letter;
use crate::{bucket, image, sample, EIGHT, LIST_S};

fn looked(image: &[u8], tag: u64, tune_in: u64) -> Looked {
    lookup(image, tag, tune_in, &mut [0; 8 * LINE]).unwrap()
}

/// What a listener answers to each bucket, the lookup saying the same.
pub fn hearing(image: &[u8], tag: u64, tune_in: u64) -> String {
    let (text, ended) = heard([image, image], tag, tune_in, None, "");
    assert_eq!(looked(image, tag, tune_in), ended);
    text
}

/// The same where a bucket is lost, that which comes behind so many others.
pub fn hearing_with_loss(image: &[u8], tag: u64, tune_in: u64, lost: u64) -> String {
    let (text, ended) = heard([image, image], tag, tune_in, Some(lost), "");
    let looked = looked(image, tag, tune_in);
    assert_eq!((looked.found, looked.lines), (ended.found, ended.lines));
    text
}

/// The same where another list comes with the next cycle.
pub fn changed(old: &[u8], new: &[u8], tag: u64, tune_in: u64) -> String {
    let next = format!("next cycle, N {}\n", new.len() / BUCKET);
    heard([old, new], tag, tune_in, None, &next).0
}

/// The answers over two cycles, and how they ended; `next` is said between them.
fn heard(
    air: [&[u8]; 2],
    tag: u64,
    tune_in: u64,
    lost: Option<u64>,
    next: &str,
) -> (String, Looked) {
    let (mut listener, mut place, mut lines) = (Listener::new(tag), tune_in, 0);
    let (mut image, mut text) = (air[0], format!("tag {tag}, tune-in {tune_in}\n"));
    let found = loop {
        let answer = if lost == Some(listener.heard()) {
            lines = 0;
            let _ = write!(text, "bucket {place:>2}, lost: ");
            listener.lost()
        } else {
            let bucket = bucket(image, place);
            let (answer, matching) = listener.step(bucket);
            lines += matching.clone().count() as u64;
            let taken: String = matching.map(|line| format!("line {line}, ")).collect();
            let _ = write!(text, "bucket {place:>2}, {}: {taken}", letter(bucket));
            answer
        };
        match answer {
            Answer::Doze(distance) => {
                let _ = writeln!(text, "doze by {distance}");
                place += distance;
                if place == (image.len() / BUCKET) as u64 {
                    text += next;
                    (image, place) = (air[1], 0);
                }
            }
            Answer::Found => break true,
            Answer::Absent => break false,
            Answer::Refused(refusal) => panic!("{refusal}"),
        }
    };
    let (heard, elapsed) = (listener.heard(), listener.elapsed());
    let end = if found { "found" } else { "absent" };
    let text = format!("{text}{end}\nheard {heard}, elapsed {elapsed}\n");
    (text, Looked { found, heard, elapsed, lines })
}

fn settings_text(layout: u64, copies: u64) -> String {
    let letter = if layout == 1 { "r" } else { "m" };
    format!("layout {layout}, {letter} {copies}")
}

/// The sizes for the lines of list S, with which it is built.
pub fn sizes() -> String {
    let of = |layout, copies, c| size(5, sample(layout, copies), c).unwrap();
    let mut text = format!("k {}, D {}\n", of(1, 0, 0).k, of(1, 0, 0).d);
    let distributed = (0..=2).map(|r| (1, r));
    for (layout, copies) in distributed.chain((1..=5).map(|m| (2, m))) {
        let (sized, s) = (of(layout, copies, 0), image(LIST_S.as_bytes(), sample(layout, copies)));
        assert_eq!((sized.bytes, sized.k, sized.d), (s.len() as u64, of(1, 0, 0).k, of(1, 0, 0).d));
        let settings = settings_text(layout, copies);
        let _ = writeln!(text, "{settings}: N {}, {} bytes", sized.n, sized.bytes);
    }
    for c in [0, 1, 2, 5, 6] {
        let _ = writeln!(text, "C {c}: heard at most {}", of(1, 0, c).heard);
    }
    text
}

/// The mean waits of list S, with the words about tag 5 and the others.
pub fn mean_waits() -> String {
    let one_copy = image(LIST_S.as_bytes(), sample(1, 1));
    let waits = |tag| (0..12).map(|tune_in| looked(&one_copy, tag, tune_in).elapsed).sum::<u64>();
    assert_eq!([3, 5, 8, 9].map(waits), [138, 162, 174, 126]);
    let mut text = String::new();
    for (layout, copies) in [(1, 0), (1, 1), (1, 2), (2, 2), (2, 5)] {
        let wait = mean(LIST_S.as_bytes(), sample(layout, copies)).unwrap();
        let Mean { sum, divisor, quotient, remainder } = wait;
        let settings = settings_text(layout, copies);
        let _ = writeln!(
            text,
            "{settings}: sum {sum}, divided by {divisor}: {quotient}, remainder {remainder}"
        );
    }
    text
}

/// N, or the refusal.
fn built(list: &[u8], layout: u64, copies: u64) -> String {
    match build(list, sample(layout, copies), &mut [0; 40 * BUCKET]) {
        Ok(buckets) => format!("N {buckets}"),
        Err(refusal) => format!("refused by {}", refusal.number),
    }
}

/// How the tag ends in layout 1.
fn ended(list: &[u8], r: u64, tag: u64, tune_in: u64) -> String {
    let Looked { found, heard, elapsed, lines } = looked(&image(list, sample(1, r)), tag, tune_in);
    let end = if found { "found" } else { "absent" };
    format!("tag {tag} from {tune_in}: {end}, heard {heard}, elapsed {elapsed}, lines {lines}")
}

/// How any tag ends in the cycle of no lines.
fn ended_in_none() -> String {
    let end = |tag| ended(b"", 0, tag, 0).replace(&format!("tag {tag} "), "any tag ");
    for tag in [0, 1, 4_294_967_295, 4_294_967_296, u64::MAX] {
        assert_eq!(end(tag), end(5));
    }
    end(5)
}

/// P1 to P11.
pub fn sample_yard() -> String {
    let s = LIST_S.as_bytes();
    let r = |r| format!("r {r}: {}", built(s, 1, r));
    let m = |m| format!("m {m}: {}", built(s, 2, m));
    let with_r_1 = |tag, tune_in| format!("list S, r 1, {}", ended(s, 1, tag, tune_in));
    let eight = list_of(&EIGHT);
    let points = [
        format!("list S, layout 1, {}", r(0)),
        format!("list S, layout 1, {}", r(1)),
        format!("list S, layout 1, {}; {}", r(2), r(3)),
        format!("list S, layout 2, {}; {}; {}", m(2), m(5), m(6)),
        format!("no lines, layout 1, r 0: {}; {}", built(b"", 1, 0), ended_in_none()),
        with_r_1(5, 0),
        with_r_1(6, 7),
        with_r_1(10, 3),
        with_r_1(9, 0),
        with_r_1(3, 8),
        format!("eight lines, r 2: {}; {}", built(&eight, 1, 2), ended(&eight, 2, 5, 12)),
    ];
    (1..).zip(points).map(|(i, point)| format!("{:<5}{point}\n", format!("P{i}"))).collect()
}
