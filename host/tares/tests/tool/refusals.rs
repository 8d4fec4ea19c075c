//! The text of each refusal: number, place, condition, reason and remedy. (7
//! and 14 do not arise: buffers suffice, and a lookup stops at its end. Those of
//! a change are in `changes`, those of sizes and means in `plans`.)

use reference::generate::{line, list_of};

use crate::run::{Folder, R1};

/// Builds a list and returns what it is refused by, and the details.
fn refused(folder: &Folder, list: &[u8], settings: &str) -> (String, Vec<String>) {
    folder.write("given", list);
    split(&folder.tares(&format!("build given out {settings}")).refused())
}

/// The first line of a message, and the others.
fn split(text: &str) -> (String, Vec<String>) {
    let mut lines = text.lines().map(str::to_string);
    (lines.next().unwrap(), lines.map(|line| line.trim_start().to_string()).collect())
}

const BY_2: &str =
    "tares: refused by 2, place 0: list length no multiple of 27, or over 40,000 lines";

#[test]
fn settings() {
    let folder = Folder::sample_yard("refusals_settings");
    let s = folder.read("list");
    let by_1 = "tares: refused by 1, place 0: n, p or layout outside its range";
    let (first, details) = refused(&folder, &s, "--n 9 --p 1 --layout 1 --copies 1");
    assert_eq!((&*first, details), (by_1, vec!["n 9 is outside 2 to 8".to_string()]));
    let (_, details) = refused(&folder, &s, "--n 1 --p 0 --layout 3 --copies 1");
    assert_eq!(
        details,
        ["n 1 is outside 2 to 8", "p 0 is outside 1 to 8", "layout 3 is outside 1 to 2"]
    );

    let by_5 = "tares: refused by 5, place 0: copies outside its range";
    let (first, details) = refused(&folder, &s, "--n 2 --p 1 --layout 1 --copies 3");
    let why = "5 lines make k = 3 index levels; r is at most k - 1, and at most 4";
    assert_eq!(
        (&*first, &*details[0]),
        (by_5, &*format!("copies 3 is outside 0 to 2 here: {why}"))
    );
    let (_, details) = refused(&folder, &s, "--n 2 --p 1 --layout 2 --copies 6");
    let why = "5 lines make D = 5 data buckets (k = 3); m is at most D, and at least 1";
    assert_eq!(details, [format!("copies 6 is outside 1 to 5 here: {why}")]);

    let by_6 = "tares: refused by 6, place 0: over 99,999 buckets";
    let many = list_of(&vec![7; 40_000]);
    let (first, details) = refused(&folder, &many, "--n 8 --p 1 --layout 2 --copies 40000");
    // A tree of 5000 + 625 + 79 + 10 + 2 + 1 buckets.
    assert_eq!(first, by_6);
    assert_eq!(
        details,
        [
            "40000 lines with --n 8 --p 1 --layout 2 --copies 40000 would make N = 228720000 buckets",
            "it fits with --copies 10 at most",
        ]
    );
    folder.write("many", &many);
    folder.tares("build many out --n 8 --p 1 --layout 2 --copies 10").done();
    folder.tares("build many out --n 8 --p 1 --layout 2 --copies 11").refused();
}

/// Each way to misprint each number of a line.
#[test]
fn misprinted_lines() {
    let folder = Folder::new("refusals_misprinted_lines");
    let good = line(5, 8_300, 12, 345);
    let refused_line = |third: &str, reason: &str| {
        let list = [&*good, &*good, third].concat();
        let (first, details) = refused(&folder, list.as_bytes(), R1);
        assert_eq!(first, "tares: refused by 3, place 2: line misprinted");
        assert_eq!(details[0], format!("line 3 (place 2): {reason}"));
        assert_eq!(details[1], format!("\"{}\"", third.escape_debug()));
    };
    refused_line(&line(5, 108_300, 12, 345), "tare 108300 is over 99999");
    refused_line(&line(4_294_967_296, 0, 0, 0), "tag 4294967296 is over 4294967295");
    let altered = |columns: &str, with: &str| good.replacen(columns, with, 1);
    refused_line(&altered("  8300", "8300  "), "tare \"8300  \" is not right-justified");
    refused_line(&altered("  8300", "00830 "), "tare \"00830 \" is not right-justified");
    refused_line(&altered("  8300", " 8 300"), "tare \" 8 300\" has a blank among its digits");
    refused_line(&altered("  8300", "08 300"), "tare \"08 300\" has a blank among its digits");
    refused_line(&altered("  8300", "-08300"), "tare \"-08300\" has \"-\", which is no digit");
    refused_line(&altered("  8300", " 83.00"), "tare \" 83.00\" has \".\", which is no digit");
    refused_line(&altered("  8300", "      "), "tare is blank");
    refused_line(&altered("  12", "  1x"), "material code \"  1x\" has \"x\", which is no digit");
    refused_line(
        &altered("   345", "     -"),
        "weighing number \"     -\" has \"-\", which is no digit",
    );
    refused_line(&altered("345\n", "345."), "no newline behind it");
}

/// A leading zero is no misprint in a list, so another one is told.
#[test]
fn leading_zeros() {
    let folder = Folder::new("refusals_leading_zeros");
    let refused = |list: &[&str]| refused(&folder, list.concat().as_bytes(), R1);
    let (nine, eight) = (line(9, 0, 0, 0).replace(' ', "0"), line(8, 0, 0, 0).replace(" 8", "08"));
    let (first, details) = refused(&[&nine, &eight]);
    assert_eq!(first, "tares: refused by 4, place 1: tag falls");
    assert_eq!(details[0], "line 2 (place 1): tag 8 is below tag 9 of line 1");
    let (first, details) = refused(&[&nine, &eight, &line(9, 100_000, 0, 0).replace(' ', "0")]);
    assert_eq!(first, "tares: refused by 3, place 2: line misprinted");
    assert_eq!(details[0], "line 3 (place 2): tare 100000 is over 99999");
}

#[test]
fn falling_tags() {
    let folder = Folder::new("refusals_falling_tags");
    let (first, details) = refused(&folder, &list_of(&[5, 8, 3]), R1);
    assert_eq!(first, "tares: refused by 4, place 2: tag falls");
    assert_eq!(
        details,
        [
            "line 3 (place 2): tag 3 is below tag 8 of line 2",
            "sort the list by tag, equal tags in the order they have",
        ]
    );
}

/// What is said of a file that is no list, behind its length or its first misprinted line.
fn faults(folder: &Folder, list: &[u8]) -> Vec<String> {
    let (first, mut details) = refused(folder, list, R1);
    assert!(first == BY_2 || first.starts_with("tares: refused by 3, "), "{first}");
    details.drain(..if first == BY_2 { 1 } else { 2 });
    details
}

const CARRIAGE: &str = "lines end in CR LF: save with LF alone (or: tr -d '\\r')";

/// Files that an editor leaves.
#[test]
fn other_encodings() {
    let folder = Folder::sample_yard("refusals_other_encodings");
    let s = String::from_utf8(folder.read("list")).unwrap();
    let faults = |list: &[u8]| faults(&folder, list);
    let carriage = s.replace('\n', "\r\n");
    assert_eq!(faults(carriage.as_bytes()), [CARRIAGE]);
    // 27 lines with CR LF are as long as 28 lines.
    assert_eq!(faults(line(5, 0, 0, 0).replace('\n', "\r\n").repeat(27).as_bytes()), [CARRIAGE]);
    let mark = "the file begins with a byte order mark: save it without one";
    assert_eq!(faults(format!("\u{feff}{s}").as_bytes()), [mark]);
    assert_eq!(faults(format!("\u{feff}{carriage}").as_bytes()), [mark, CARRIAGE]);
    let little: Vec<u8> = s.encode_utf16().flat_map(u16::to_le_bytes).collect();
    let big: Vec<u8> = s.encode_utf16().flat_map(u16::to_be_bytes).collect();
    for list in [&little, &big, &[b"\xff\xfe", &*little].concat(), &[b"\xfe\xff", &*big].concat()] {
        assert_eq!(faults(list), ["the file is UTF-16: save it as plain text (ASCII)"]);
    }
}

/// Lines of another length, or with separators.
#[test]
fn other_lines() {
    let folder = Folder::sample_yard("refusals_other_lines");
    let s = String::from_utf8(folder.read("list")).unwrap();
    let faults = |list: &[u8]| faults(&folder, list);
    let ended = "the last line has no newline behind it: add one";
    assert_eq!(faults(s.strip_suffix('\n').unwrap().as_bytes()), [ended]);
    let cut = "the last line has 22 characters and no newline, 26 and one are due";
    assert_eq!(faults(&s.as_bytes()[..130]), [cut]);
    let short = s.replacen("  8     0", "  8    0", 1);
    let due = "characters before its newline, 26 are due";
    assert_eq!(faults(short.as_bytes()), [format!("line 4 has 25 {due}")]);
    assert_eq!(faults(format!("{s}\n").as_bytes()), [format!("line 6 has 0 {due}")]);
    let import =
        "figures stand in columns with blanks or zeros before them; tares import makes a list of a CSV file";
    let has = |line: u64, what: &str| [format!("line {line} has a {what}: {import}")];
    assert_eq!(faults(b"5\t8300\t1\t2\n6\t8300\t1\t3\n"), has(1, "tab"));
    assert_eq!(faults(s.replacen("5     0", "5\t    0", 1).as_bytes()), has(2, "tab"));
    assert_eq!(faults(format!("{s}5,8300,1,2\n").as_bytes()), has(6, "comma"));
    assert_eq!(faults(b"5;8300;1;2\n"), has(1, "semicolon"));
    assert_eq!(refused(&folder, &[b' '; 28], R1).1[0], "28 = 1 x 27 + 1 bytes");
}

#[test]
fn reading_back() {
    let folder = Folder::sample_yard("refusals_reading_back");
    let refused = |image: &[u8], settings: &str| {
        folder.write("given", image);
        split(&folder.tares(&format!("read given out {settings}")).refused())
    };
    let image = folder.read("image");
    let (first, details) = refused(&image, "--n 2 --p 0 --layout 1 --copies 1");
    assert_eq!(first, "tares: refused by 1, place 0: n, p or layout outside its range");
    assert_eq!(details, ["p 0 is outside 1 to 8"]);

    let by_11 =
        "tares: refused by 11, place 0: image empty, no multiple of 240, or over 99,999 buckets";
    assert_eq!(refused(b"", R1), (by_11.to_string(), vec!["0 = 0 x 240 + 0 bytes".to_string()]));
    let text = String::from_utf8(image.clone()).unwrap().replace('\n', "\r\n");
    assert_eq!(refused(text.as_bytes(), R1).1, ["2892 = 12 x 240 + 12 bytes", CARRIAGE]);

    let by_13 = "tares: refused by 13, place 0: no list builds this image under these settings";
    let (first, details) = refused(&image, "--n 2 --p 1 --layout 2 --copies 1");
    assert_eq!(first, by_13);
    assert_eq!(
        details,
        [
            "--n 2 --p 1 --layout 2 --copies 1, 12 buckets",
            "it reads back with --n 2 --p 1 --layout 1 --copies 1"
        ]
    );
    let check = "tares check LIST IMAGE tells where it differs from a list's cycle";
    let mut altered = image.clone();
    altered[102] = b'7';
    assert_eq!(refused(&altered, R1).1, ["--n 2 --p 1 --layout 1 --copies 1, 12 buckets", check]);
    altered[240 * 3 + 24] = b'x';
    let misprinted = "bucket 3 is misprinted: letter \"x\" is neither I nor D";
    assert_eq!(refused(&altered, R1).1[1..], [misprinted, check]);
}

/// What a command on an image is refused by.
fn refused_image(folder: &Folder, image: &[u8], words: &str) -> String {
    folder.write("given", image);
    folder.tares(words).refused()
}

/// A bucket as a message shows it.
fn shown(bucket: &[u8]) -> String {
    format!("\"{}\\n\"", String::from_utf8(bucket[..239].to_vec()).unwrap())
}

/// A wrong byte in bucket 8, to which the pointer of bucket 0 leads.
#[test]
fn misprinted_bucket() {
    let folder = Folder::sample_yard("refusals_misprinted_bucket");
    let image = folder.read("image");
    let mut misprinted = image.clone();
    misprinted[240 * 8 + 30] = 0xff;
    let bucket = shown(&image[240 * 8..240 * 9]);
    let bucket = format!("{}\\xff{}", &bucket[..31], &bucket[32..]);
    for (words, tune_in) in
        [("lookup given 9 --tune-in 0", 0), ("lookup given 9 --tune-in 8", 8), ("table given 9", 0)]
    {
        assert_eq!(
            refused_image(&folder, &misprinted, words),
            format!(
                "tares: refused by 8, place 8: bucket not 240 bytes, or misprinted\n  \
                 tag 9, tune-in {tune_in}\n  \
                 pair 1 tag \" \\xff       8\" has \"\\xff\", which is no digit\n  \
                 bucket 8: {bucket}\n"
            )
        );
    }
}

/// One bucket with an entry that leads to itself.
#[test]
fn past_the_next_cycle() {
    let folder = Folder::new("refusals_past_the_next_cycle");
    let round = format!("{:<93}{:>10}{:>6}{:>131}", "     0     1     1     0I 0 1", 5, 1, "\n");
    let why = "tuned in at position 0 of N 1, and N is 1 in the next cycle: \
               at most 2 buckets go by, and the pointer leads past them";
    assert_eq!(
        refused_image(&folder, round.as_bytes(), "lookup given 5 --tune-in 0"),
        format!(
            "tares: refused by 10, place 0: the next bucket lies past the cycle after tune-in's\n  \
             tag 5, tune-in 0\n  {why}\n  bucket 0: {}\n",
            shown(round.as_bytes())
        )
    );
}

#[test]
fn no_image() {
    let folder = Folder::sample_yard("refusals_no_image");
    let image = folder.read("image");
    for words in ["lookup given 5 --tune-in 0", "table given 5", "show given", "show given 0"] {
        assert_eq!(
            refused_image(&folder, &image[..241], words),
            "tares: refused by 11, place 0: image empty, no multiple of 240, or over 99,999 buckets\n  \
             241 = 1 x 240 + 1 bytes\n  \
             bucket 1 has only 1 of its 240 bytes\n"
        );
        let empty = refused_image(&folder, b"", words);
        assert!(empty.starts_with("tares: refused by 11, place 0"), "{empty}");
    }
    for words in ["lookup given 5 --tune-in 12", "follow given 5 --tune-in 12"] {
        assert_eq!(
            refused_image(&folder, &image, words),
            "tares: refused by 12, place 0: tune-in at or past the image's bucket count\n  \
             tune-in 12, and the last bucket is 11\n"
        );
    }
}

/// The lists of two cycles in one image: 10 counts the N of each.
#[test]
fn past_a_new_cycle() {
    let folder = Folder::sample_yard("refusals_past_a_new_cycle");
    let mut image = folder.read("image");
    let round = format!("{:<93}{:>10}{:>6}{:>131}", "     0     1     1     0I 0 1", 5, 1, "\n");
    image.extend(round.bytes());
    let text = refused_image(&folder, &image, "lookup given 5 --tune-in 8");
    let (first, details) = split(&text);
    let by_10 = "the next bucket lies past the cycle after tune-in's";
    assert_eq!(first, format!("tares: refused by 10, place 12: {by_10}"));
    let why = "tuned in at position 8 of N 12, and N is 1 in the next cycle: \
               at most 5 buckets go by, and the pointer leads past them";
    assert_eq!(details[..2], ["tag 5, tune-in 8", why]);
}

/// Behind a doze to the next cycle's start 9 tells no N.
#[test]
fn start_not_as_awaited() {
    let folder = Folder::sample_yard("refusals_start_not_as_awaited");
    let mut image = folder.read("image");
    image.copy_within(240..240 * 2, 0);
    let text = refused_image(&folder, &image, "lookup given 5 --tune-in 8");
    let (first, details) = split(&text);
    assert_eq!(first, "tares: refused by 9, place 0: letter, position or N not as awaited");
    let awaited = "awaited: an index bucket with position 0";
    let came = "came: an index bucket with position 1 and N 12";
    assert_eq!(details[..3], ["tag 5, tune-in 8", awaited, came]);
}

/// 9 says what was awaited and what came: letter, position, N.
#[test]
fn not_as_awaited() {
    let folder = Folder::sample_yard("refusals_not_as_awaited");
    let image = folder.read("image");
    let moved = |from: usize, to: usize| {
        let mut moved = image.clone();
        moved.copy_within(240 * from..240 * (from + 1), 240 * to);
        moved
    };
    let mut other = image.clone();
    other[6..12].copy_from_slice(b"    13");
    for (image, tag, place, awaited, came) in [
        // Behind the pointer of bucket 0, an entry of bucket 10, the follow-on of bucket 5.
        (moved(5, 8), 9, 8, ("an index", 8, 12), ("a data", 5, 12)),
        (moved(1, 11), 9, 11, ("a", 11, 12), ("an index", 1, 12)),
        (moved(2, 6), 5, 6, ("a data", 6, 12), ("an index", 2, 12)),
        // Bucket 0 prints another N than bucket 8.
        (other, 9, 8, ("an index", 8, 13), ("an index", 8, 12)),
    ] {
        let text = refused_image(&folder, &image, &format!("lookup given {tag} --tune-in 0"));
        let (first, details) = split(&text);
        let by_9 = "letter, position or N not as awaited";
        assert_eq!(first, format!("tares: refused by 9, place {place}: {by_9}"));
        let told = |(kind, position, cycle): (&str, u64, u64)| {
            format!("{kind} bucket with position {position} and N {cycle}")
        };
        assert_eq!(
            details[..3],
            [
                format!("tag {tag}, tune-in 0"),
                format!("awaited: {}", told(awaited)),
                format!("came: {}", told(came)),
            ]
        );
    }
}
