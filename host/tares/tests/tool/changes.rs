//! Lines put into a list and taken out of it, with its cycle.

use reference::generate::{full_of_zeros, line, list, list_of, Random};
use reference::yards::image_of;
use reference::Refusal;

use crate::run::{Folder, R1};

#[test]
fn add_and_remove() {
    let folder = Folder::sample_yard("changes_add_and_remove");
    let s = folder.read("list");
    let report = folder.tares(&format!("add list image 5 8300 12 7 {R1}")).done();
    assert_eq!(report, "added as line 4; 6 lines, 13 buckets, k 3, D 6\n");
    let added = line(5, 8_300, 12, 7).into_bytes();
    let changed = [&s[..27 * 3], &added, &s[27 * 3..]].concat();
    assert!(folder.read("list") == changed);
    assert!(folder.read("image") == image_of(&changed, [2, 1, 1, 1]));
    // The first of the two lines of tag 5 that are alike.
    let report = folder.tares(&format!("remove list image 5 0 0 0 {R1}")).done();
    assert_eq!(report, "line 2 taken out; 5 lines, 12 buckets, k 3, D 5\n");
    let changed = [&s[..27 * 2], &added, &s[27 * 3..]].concat();
    assert!(folder.read("list") == changed);
    assert!(folder.read("image") == image_of(&changed, [2, 1, 1, 1]));
    assert_eq!(folder.names(), ["image", "list"]);
}

/// To the last line and back, an image that is not there yet, and other settings.
#[test]
fn empty_list() {
    let folder = Folder::new("changes_empty_list");
    folder.write("list", b"");
    let settings = "--n 8 --p 8 --layout 2 --copies 1";
    let report = folder.tares(&format!("add list image 7 1 2 3 {settings}")).done();
    assert_eq!(report, "added as line 1; 1 line, 2 buckets, k 1, D 1\n");
    assert!(folder.read("list") == line(7, 1, 2, 3).into_bytes());
    let run = folder.tares(&format!("remove list image 7 1 2 3 {settings}"));
    assert_eq!(run.out, b"line 1 taken out; 0 lines, 1 bucket, k 1, D 0\n");
    let warning = "tares: warning: the list is empty, so every tag is absent\n";
    assert_eq!((run.status, &*run.err), (0, warning));
    assert_eq!((folder.read("list").len(), folder.read("image").len()), (0, 240));
}

/// Lines keep their bytes, and a line is found by its numbers.
#[test]
fn leading_zeros() {
    let folder = Folder::new("changes_leading_zeros");
    let zeros = full_of_zeros(&list_of(&[3, 5, 9]));
    folder.write("list", &zeros);
    folder.tares(&format!("add list image 007 08300 1 2 {R1}")).done();
    let added = line(7, 8_300, 1, 2).into_bytes();
    assert!(folder.read("list") == [&zeros[..54], &added, &zeros[54..]].concat());
    folder.tares(&format!("remove list image 5 0 0 0 {R1}")).done();
    assert!(folder.read("list") == [&zeros[..27], &added, &zeros[54..]].concat());
}

/// From standard input to standard output, the image to a file, or the other way round.
#[test]
fn standard_input_and_output() {
    let folder = Folder::sample_yard("changes_standard_input_and_output");
    let s = folder.read("list");
    let report = "added as line 1; 6 lines, 13 buckets, k 3, D 6\n";
    let changed = [list_of(&[1]), s.clone()].concat();
    let run = folder.tares_given(&format!("add - image 1 0 0 0 {R1}"), &s);
    assert_eq!((run.status, &*run.err), (0, report));
    assert!(run.out == changed && folder.read("list") == s);
    assert!(folder.read("image") == image_of(&changed, [2, 1, 1, 1]));
    let run = folder.tares(&format!("add list - 1 0 0 0 {R1}"));
    assert_eq!((run.status, &*run.err), (0, report));
    assert!(run.out == folder.read("image") && folder.read("list") == changed);
}

/// The first line in which a list differs from one that it begins like, or that it is longer by.
fn first_difference(list: &[u8], other: &[u8]) -> usize {
    1 + list.chunks(27).zip(other.chunks(27)).take_while(|(one, other)| one == other).count()
}

/// The first line that is this one.
fn first_alike(list: &[u8], line: &[u8]) -> usize {
    1 + list.chunks(27).position(|other| other == line).unwrap()
}

/// Many changes of one list, against the reference: what is written, and what is refused.
#[test]
fn sequences() {
    let folder = Folder::new("changes_sequences");
    let mut random = Random::new(31);
    folder.write("list", b"");
    let (mut held, mut lines) = (vec![0; 27 * 400], 0);
    let mut answers = [0; 18];
    for _ in 0..400 {
        let figures = [random.below(6), random.below(2), 0, 7];
        let [tag, tare, material, weighing] = figures;
        let given = line(tag, tare, material, weighing);
        let settings =
            [2 + random.below(3), 1 + random.below(2), 1 + random.below(2), random.below(4)];
        let [n, p, layout, copies] = settings;
        let (name, call): (_, fn(_, _, _, _, _) -> _) = match random.below(2) {
            0 => ("add", reference::arrive),
            _ => ("remove", reference::take_out),
        };
        let mut image = vec![0; 240 * 400];
        let expected = call(&mut held, lines, given.as_bytes(), settings, &mut image);
        let before = (folder.read("list"), folder.names());
        let run = folder.tares(&format!(
            "{name} list image {tag} {tare} {material} {weighing} \
             --n {n} --p {p} --layout {layout} --copies {copies}"
        ));
        match expected {
            Ok(changed) => {
                lines = changed.lines;
                let list = &held[..27 * lines as usize];
                let told = match name {
                    "add" => format!("added as line {}", first_difference(list, &before.0)),
                    _ => format!("line {} taken out", first_alike(&before.0, given.as_bytes())),
                };
                let counts = format!("k {}, D {}\n", changed.k, changed.d);
                let text = String::from_utf8(run.out).unwrap();
                assert!(
                    text.starts_with(&format!("{told}; ")) && text.ends_with(&counts),
                    "{text}"
                );
                assert!(folder.read("list") == held[..27 * lines as usize]);
                assert!(folder.read("image") == image[..240 * changed.n as usize]);
                answers[0] += 1;
            }
            Err(Refusal { number, place }) => {
                let text = run.refused();
                let by = format!("tares: refused by {number}, place {place}: ");
                assert!(text.starts_with(&by), "{text}");
                assert_eq!((folder.read("list"), folder.names()), before);
                answers[number as usize] += 1;
            }
        }
    }
    assert!([0, 5, 15].iter().all(|&number| answers[number] > 20), "{answers:?}");
}

/// What a change is refused by, and the details. Neither file is touched.
fn refused(folder: &Folder, words: &str) -> (String, Vec<String>) {
    let before = (folder.read("list"), folder.read("image"));
    let text = folder.tares(words).refused();
    assert!((folder.read("list"), folder.read("image")) == before, "{words}");
    let mut lines = text.lines().map(|line| line.trim_start().to_string());
    let first = lines.next().unwrap();
    (first.strip_prefix("tares: refused by ").unwrap().to_string(), lines.collect())
}

/// The settings, and the line that is given.
#[test]
fn refused_lines() {
    let folder = Folder::sample_yard("changes_refused_lines");
    let (first, details) =
        refused(&folder, "add list image 5 0 0 0 --n 2 --p 9 --layout 1 --copies 1");
    assert_eq!(first, "1, place 0: n, p or layout outside its range");
    assert_eq!(details, ["p 9 is outside 1 to 8"]);
    for name in ["add", "remove"] {
        let over = |words: &str| refused(&folder, &format!("{name} list image {words} {R1}"));
        let (first, details) = over("4294967296 100000 0 0");
        assert_eq!(first, "3, place 5: line misprinted");
        assert_eq!(
            details,
            [
                "the line given: tag 4294967296 is over 4294967295",
                "the line given: tare 100000 is over 99999"
            ]
        );
        let (first, details) = over("5 0 10000 18446744073709551615");
        assert_eq!(first, "2, place 0: list length no multiple of 27, or over 40,000 lines");
        assert_eq!(
            details,
            [
                "it is the line given that is too long, with 42 bytes, not the list",
                "the line given: material code 10000 is over 9999",
                "the line given: weighing number 18446744073709551615 is over 999999"
            ]
        );
    }
    let (first, details) = refused(&folder, &format!("remove list image 5 8300 0 0 {R1}"));
    assert_eq!(first, "15, place 0: the line to take out is not in the list");
    assert_eq!(
        details,
        [
            "no line has tag 5, tare 8300, material code 0, weighing number 0",
            "lines of tag 5: 2",
            "line 2: tag 5, tare 0, material code 0, weighing number 0",
            "line 3: tag 5, tare 0, material code 0, weighing number 0"
        ]
    );
    let (_, details) = refused(&folder, &format!("remove list image 6 0 0 0 {R1}"));
    assert_eq!(details[1..], ["lines of tag 6: 0"]);
    folder.write("list", &list_of(&[7; 50]));
    let (_, details) = refused(&folder, &format!("remove list image 7 1 0 0 {R1}"));
    assert_eq!((&*details[1], details.len()), ("lines of tag 7: 50", 2 + 10));
}

/// The list, and the cycle of the changed one.
#[test]
fn refused_lists() {
    let folder = Folder::sample_yard("changes_refused_lists");
    let s = folder.read("list");
    let add = |settings: &str| refused(&folder, &format!("add list image 5 0 0 0 {settings}"));
    let (first, details) = add("--n 2 --p 1 --layout 2 --copies 7");
    assert_eq!(first, "5, place 0: copies outside its range");
    let why = "6 lines make D = 6 data buckets (k = 3); m is at most D, and at least 1";
    assert_eq!(details, [format!("copies 7 is outside 1 to 6 here: {why}")]);
    let (_, details) =
        refused(&folder, "remove list image 9 0 0 0 --n 2 --p 1 --layout 1 --copies 2");
    assert!(
        details[0]
            .starts_with("copies 2 is outside 0 to 1 here: 4 lines make k = 2 index levels; "),
        "{details:?}"
    );

    folder.write("list", &s[..28]);
    let (first, details) = add(R1);
    assert_eq!(first, "2, place 0: list length no multiple of 27, or over 40,000 lines");
    assert_eq!(details[0], "28 = 1 x 27 + 1 bytes");
    let (first, _) = add("--n 9 --p 1 --layout 1 --copies 1");
    assert_eq!(first, "1, place 0: n, p or layout outside its range");

    folder.write("list", &list_of(&[5, 3]));
    let (first, details) = add(R1);
    assert_eq!(
        (&*first, &*details[0]),
        ("4, place 1: tag falls", "line 2 (place 1): tag 3 is below tag 5 of line 1")
    );

    let mut misprinted = s.clone();
    misprinted[27 + 9] = b'x';
    folder.write("list", &misprinted);
    let (first, details) = add(R1);
    assert_eq!(first, "3, place 1: line misprinted");
    assert_eq!(details[0], "line 2 (place 1): tag \"         x\" has \"x\", which is no digit");
}

/// The 40,000th line, and no more; a cycle that would be too long.
#[test]
fn longest_list() {
    let folder = Folder::new("changes_longest_list");
    let list = list(&mut Random::new(32), 39_999, 3);
    folder.write("list", &list);
    let settings = "--n 8 --p 8 --layout 1 --copies 3";
    let report = folder.tares(&format!("add list image 0 0 0 0 {settings}")).done();
    assert!(report.ends_with("; 40000 lines, 5795 buckets, k 5, D 5000\n"), "{report}");
    let changed = folder.read("list");
    assert!(folder.read("image") == image_of(&changed, [8, 8, 1, 3]));
    let (first, details) = refused(&folder, &format!("add list image 0 0 0 0 {settings}"));
    assert_eq!(first, "16, place 0: the list has 40,000 lines or its buffer no place for one more");
    assert_eq!(details, ["40000 lines are the most of a list"]);
    let words = "remove list image 0 0 0 0 --n 8 --p 1 --layout 2 --copies 11";
    let (first, details) = refused(&folder, words);
    assert_eq!(first, "6, place 0: over 99,999 buckets");
    assert!(
        details[0].starts_with("39999 lines with --n 8 --p 1 --layout 2 --copies 11 "),
        "{details:?}"
    );
    folder.tares(&format!("remove list image 0 0 0 0 {settings}")).done();
    assert_eq!(folder.read("list").len(), 27 * 39_999);
    folder.write("list", &[changed, list_of(&[4_294_967_295])].concat());
    let (first, details) = refused(&folder, &format!("remove list image 0 0 0 0 {settings}"));
    assert_eq!(first, "2, place 0: list length no multiple of 27, or over 40,000 lines");
    assert_eq!(details, ["more than 1080000 = 40000 x 27 bytes"]);
}
