//! An example of each refusal.

use pansdaoh::{arrive, build, lookup, mean, read_back, take_out};
use pansdaoh::{Answer, Listener, Refusal, Settings, BUCKET, LINE};
use reference::generate::list_of;

use crate::{bucket, sample, sample_image, DOCUMENT, LIST_S};

/// What is given, and what is answered.
type Examples = Vec<(&'static str, Refusal)>;

fn building() -> Examples {
    let s = LIST_S.as_bytes();
    let misprinted = LIST_S.replace("  8 ", "    ");
    let many = list_of(&vec![7; 40_000]);
    let nine = Settings { n: 9, ..sample(1, 1) };
    let refused =
        |list: &[u8], settings, room| build(list, settings, &mut vec![0; room]).unwrap_err();
    let roomy = |list: &[u8], settings| refused(list, settings, 99_999 * BUCKET);
    vec![
        ("building, n 9", roomy(s, nine)),
        ("building, a list of 28 bytes", roomy(&[b' '; 28], sample(1, 1))),
        (
            "building, list S with line 3's tag left blank",
            roomy(misprinted.as_bytes(), sample(1, 1)),
        ),
        ("building, tags 5, 3", roomy(&list_of(&[5, 3]), sample(1, 1))),
        ("building, list S, n 2, p 1, r 3", roomy(s, sample(1, 3))),
        ("building, 40,000 lines, n 2, p 1, m 40,000", roomy(&many, sample(2, 40_000))),
        ("building, list S, r 1, into 2,879 bytes", refused(s, sample(1, 1), 2_879)),
    ]
}

fn changing() -> Examples {
    let s = &mut LIST_S.as_bytes().to_vec();
    let image = &mut [0; 40 * BUCKET];
    let absent = take_out(s, 5, &list_of(&[4]), sample(1, 1), image).unwrap_err();
    let full = arrive(s, 5, &list_of(&[4]), sample(1, 1), image).unwrap_err();
    vec![
        ("taking a line of tag 4 out of list S", absent),
        ("a line arriving in list S, in a buffer of 135 bytes", full),
    ]
}

fn averaging() -> Examples {
    vec![("the mean wait, a list of 0 bytes", mean(b"", sample(1, 0)).unwrap_err())]
}

fn listening() -> Examples {
    let s = sample_image(1, 1);
    let refused = |listener: &mut Listener, bucket: &[u8]| match listener.step(bucket).0 {
        Answer::Refused(refusal) => refusal,
        answer => panic!("{answer:?}"),
    };
    let mut ended = Listener::new(10);
    let answers = [3, 8].map(|position| ended.step(bucket(&s, position)).0);
    assert_eq!(answers, [Answer::Doze(5), Answer::Absent]);
    vec![
        ("a step, 239 bytes", refused(&mut Listener::new(5), &s[..239])),
        ("a step, any bucket after absent", refused(&mut ended, bucket(&s, 0))),
    ]
}

fn looking_up() -> Examples {
    let s = sample_image(1, 1);
    let mut moved = s.clone();
    moved.copy_within(5 * BUCKET..6 * BUCKET, 8 * BUCKET);
    let entry = format!("{:<93}{:>10}{:>6}", "     0     1     1     0I 0 1", 5, 1);
    let round = format!("{entry:<239}\n");
    let refused =
        |image: &[u8], tag, tune_in| lookup(image, tag, tune_in, &mut [0; 8 * LINE]).unwrap_err();
    vec![
        ("a lookup of tag 9 from bucket 0, bucket 5 sent where 8 is due", refused(&moved, 9, 0)),
        (
            "a lookup of tag 5 in one bucket, N 1, entry 5 at distance 1",
            refused(round.as_bytes(), 5, 0),
        ),
        ("a lookup, an image of 0 bytes", refused(&[], 5, 0)),
        ("a lookup, tune-in 12 of 12", refused(&s, 5, 12)),
    ]
}

fn reading_back() -> Examples {
    let mut altered = sample_image(1, 1);
    assert_eq!(&altered[93..109], b"         8     1");
    altered[102] = b'7';
    let refused = read_back(&altered, sample(1, 1), &mut [0; 8 * LINE]).unwrap_err();
    vec![("reading back, list S, r 1, the first entry's 8 altered to 7", refused)]
}

/// The rows of the document's table are these, each number once.
#[test]
fn each_refusal_with_its_example() {
    let calls = [building(), changing(), averaging(), listening(), looking_up(), reading_back()];
    let mut examples = calls.concat();
    examples.sort_by_key(|(_, refusal)| refusal.number);
    let numbers: Vec<u64> = examples.iter().map(|(_, refusal)| refusal.number).collect();
    assert_eq!(numbers, (1..=17).collect::<Vec<u64>>());
    let row = |(example, refusal): &(&str, Refusal)| {
        let (number, place) = (refusal.number, refusal.place);
        format!("| {number} | {} | {example} | {place} |", refusal.condition())
    };
    let numbered = |line: &&str| {
        line.strip_prefix("| ").is_some_and(|row| row.starts_with(|c: char| c.is_ascii_digit()))
    };
    let rows: Vec<&str> = DOCUMENT.lines().filter(numbered).collect();
    assert_eq!(rows, examples.iter().map(row).collect::<Vec<String>>());
}
