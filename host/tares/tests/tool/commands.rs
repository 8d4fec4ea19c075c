use reference::generate::{full_of_zeros, list, list_of, some_zeros, Random};

use crate::run::{Folder, R1};

/// Document 01's table of tag 5.
const TABLE: &str = include_str!("../../../sample/table");

#[test]
fn builds() {
    let folder = Folder::new("builds");
    let list = list(&mut Random::new(1), 100, 2);
    folder.write("list", &list);
    for (n, p, layout, copies) in [(2, 1, 1, 4), (8, 8, 1, 0), (3, 2, 2, 5)] {
        let settings = format!("--n {n} --p {p} --layout {layout} --copies {copies}");
        let report = folder.tares(&format!("build list image {settings}")).done();
        let mut image = vec![0; 240 * 1_000];
        let buckets = reference::build(&list, n, p, layout, copies, &mut image).unwrap();
        assert_eq!(report, format!("100 lines, {buckets} buckets\n"));
        assert!(folder.read("image") == image[..240 * buckets as usize]);
        assert_eq!(folder.names(), ["image", "list"]);
    }
}

/// Leading zeros in a list make no difference to its cycle, and reading back
/// leaves them out.
#[test]
fn builds_with_leading_zeros() {
    let folder = Folder::new("builds_with_leading_zeros");
    let random = &mut Random::new(2);
    let plain = list(random, 100, 2);
    folder.write("list", &plain);
    folder.tares(&format!("build list image {R1}")).done();
    for zeros in [full_of_zeros(&plain), some_zeros(random, &plain)] {
        folder.write("zeros", &zeros);
        let report = folder.tares(&format!("build zeros out {R1}")).done();
        assert_eq!(report, folder.tares(&format!("read out back {R1}")).done());
        assert!(folder.read("out") == folder.read("image"));
        assert!(folder.read("back") == plain);
    }
}

/// P1 to P4 of the sample yard.
#[test]
fn builds_the_sample_yard() {
    let folder = Folder::sample_yard("builds_the_sample_yard");
    for (layout, copies, buckets) in [(1, 0, 11), (1, 1, 12), (1, 2, 13), (2, 2, 17)] {
        let words = format!("build list image --n 2 --p 1 --layout {layout} --copies {copies}");
        assert_eq!(folder.tares(&words).done(), format!("5 lines, {buckets} buckets\n"));
        assert_eq!(folder.read("image").len(), 240 * buckets);
    }
}

/// An empty list is taken, with a warning.
#[test]
fn warns_of_an_empty_list() {
    let folder = Folder::new("warns_of_an_empty_list");
    folder.write("list", b"");
    let settings = "--n 2 --p 1 --layout 2 --copies 1";
    for (words, report) in [
        (format!("build list image {settings}"), "0 lines, 1 bucket\n"),
        (format!("read image back {settings}"), "0 lines, 1 bucket\n"),
        (format!("check list image {settings}"), "right: 0 lines, 1 bucket\n"),
    ] {
        let run = folder.tares(&words);
        let warning = "tares: warning: the list is empty, so every tag is absent\n";
        assert_eq!((run.status, &*run.err), (0, warning));
        assert!(String::from_utf8(run.out).unwrap().starts_with(report));
    }
    assert_eq!(folder.read("image").len(), 240);
    assert_eq!(folder.read("back").len(), 0);
    assert_eq!(folder.tares("table image 0").done(), "     0     2     2     0\n");
}

#[test]
fn reads() {
    let folder = Folder::sample_yard("reads");
    assert_eq!(folder.tares(&format!("read image back {R1}")).done(), "5 lines, 12 buckets\n");
    assert!(folder.read("back") == folder.read("list"));
}

/// A list that is there is kept if it differs, unless it is to be replaced.
#[test]
fn keeps_a_list_that_differs() {
    let folder = Folder::sample_yard("keeps_a_list_that_differs");
    let mine = [list_of(&[3, 5]), list_of(&[8, 8, 9])].concat();
    folder.write("mine", &mine);
    folder.write("other", b"no list");
    let words = format!("read image mine {R1}");
    assert_eq!(
        folder.tares(&words).wrong(),
        "tares: mine is there and differs, and is kept: lines that differ: 2\n\
         --force replaces it; tares check mine IMAGE tells what differs\n"
    );
    assert!(folder.read("mine") == mine);
    let text = folder.tares(&format!("read image other {R1}")).wrong();
    assert!(text.starts_with("tares: other is there and differs, and is kept: it is no list\n"));
    assert_eq!(folder.tares(&format!("{words} --force")).done(), "5 lines, 12 buckets\n");
    assert!(folder.read("mine") == folder.read("list"));
    // One that agrees may stand there.
    assert_eq!(folder.tares(&words).done(), "5 lines, 12 buckets\n");
}

/// A list that differs in leading zeros alone is kept too: it may be a bridge's own.
#[test]
fn keeps_leading_zeros() {
    let folder = Folder::sample_yard("keeps_leading_zeros");
    let zeros = full_of_zeros(&folder.read("list"));
    folder.write("zeros", &zeros);
    let text = folder.tares(&format!("read image zeros {R1}")).wrong();
    let kept = "tares: zeros is there and differs, and is kept: lines that differ: 0, leading zeros aside\n";
    assert!(text.starts_with(kept), "{text}");
    assert!(folder.read("zeros") == zeros);
    folder.tares(&format!("read image zeros {R1} --force")).done();
    assert!(folder.read("zeros") == folder.read("list"));
}

#[test]
fn looks_up() {
    let folder = Folder::sample_yard("looks_up");
    let line = String::from_utf8(list_of(&[5])).unwrap();
    let found = "found, heard 7, elapsed 19, lines 2\n";
    let printed = folder.tares("lookup image 5 --tune-in 0").done();
    assert_eq!(printed, found.to_string() + &line + &line);
    // The words in another order.
    assert_eq!(folder.tares("lookup --tune-in=0 image 5").done(), printed);
    assert_eq!(folder.tares("lookup image 5 --tune-in 0 lines").done(), found);
    assert!(folder.read("lines") == list_of(&[5, 5]));
    let run = folder.tares("lookup image 5 --tune-in 0 -");
    assert_eq!((run.status, &*run.err), (0, found));
    assert!(run.out == list_of(&[5, 5]));
    let absent = folder.tares("lookup image 6 --tune-in 7").done();
    assert_eq!(absent, "absent, heard 6, elapsed 13, lines 0\n");
    let absent = folder.tares("lookup image 18446744073709551615 --tune-in 3 lines").done();
    assert_eq!(absent, "absent, heard 2, elapsed 6, lines 0\n");
    assert!(folder.read("lines").is_empty());
}

#[test]
fn prints_the_table() {
    let folder = Folder::sample_yard("prints_the_table");
    assert_eq!(folder.tares("table image 5").done(), TABLE);
    let absent = folder.tares("table image 10").done();
    assert_eq!(absent.lines().count(), 12);
    assert_eq!(absent.lines().nth(3), Some("     3     2     6     0"));
}

/// Standard input and output, from one command to the next.
#[test]
fn standard_input_and_output() {
    let folder = Folder::new("standard_input_and_output");
    let list = list_of(&[3, 5, 5, 8, 9]);
    let built = folder.tares_given(&format!("build - - {R1}"), &list);
    assert_eq!(
        (built.status, &*built.err, built.out.len()),
        (0, "5 lines, 12 buckets\n", 240 * 12)
    );
    let read = folder.tares_given(&format!("read - - {R1}"), &built.out);
    assert_eq!((read.status, &*read.err), (0, "5 lines, 12 buckets\n"));
    assert!(read.out == list);
    let found = folder.tares_given("lookup - 9 --tune-in 0", &built.out).done();
    assert_eq!(found.lines().next(), Some("found, heard 5, elapsed 12, lines 1"));
    assert_eq!(folder.tares_given("table - 5", &built.out).done(), TABLE);
    assert!(folder.names().is_empty());
}

#[test]
fn help() {
    let folder = Folder::new("help");
    for words in ["--help", "-h", "help"] {
        let text = folder.tares(words).done();
        for name in ["Usage: tares COMMAND", "Exit status"] {
            assert!(text.contains(name), "{text}");
        }
        for (command, _) in USAGES {
            assert!(text.contains(&format!("\n  {command} ")), "{text}");
        }
    }
    for (command, usage) in USAGES {
        for words in [
            format!("{command} --help"),
            format!("{command} -h"),
            format!("{command} list image --help"),
            format!("help {command}"),
        ] {
            let text = folder.tares(&words).done();
            assert!(text.contains(&format!("Usage: tares {command} {usage}\n")), "{text}");
        }
    }
    let text = folder.tares("help follow").done();
    let with_losses = "\n       tares follow IMAGE TAG --tune-in T --lost X,Y,..\n";
    assert!(text.contains(with_losses), "{text}");
}

const USAGES: [(&str, &str); 12] = [
    ("check", "LIST IMAGE [--n N] [--p P] [--layout L] [--copies C] [--all]"),
    ("build", "LIST IMAGE --n N --p P --layout L --copies C"),
    ("read", "IMAGE OUT --n N --p P --layout L --copies C [--force]"),
    ("import", "CSV LIST"),
    ("add", "LIST IMAGE TAG TARE MATERIAL WEIGHING --n N --p P --layout L --copies C"),
    ("remove", "LIST IMAGE TAG TARE MATERIAL WEIGHING --n N --p P --layout L --copies C"),
    ("size", "--lines LINES --n N --p P [--layout L --copies C] [--in B]"),
    ("mean", "LIST --n N --p P [--layout L --copies C] [--compare]"),
    ("lookup", "IMAGE TAG --tune-in T [OUT]"),
    ("table", "IMAGE TAG"),
    ("follow", "IMAGE TAG --tune-in T"),
    ("show", "IMAGE [BUCKET | FROM-TO]"),
];

#[test]
fn version() {
    let folder = Folder::new("version");
    for words in ["--version", "-V"] {
        assert_eq!(folder.tares(words).done(), "tares 0.1.0\n");
    }
}

/// Behind -- every word is an operand.
#[test]
fn names_that_begin_with_a_dash() {
    let folder = Folder::sample_yard("names_that_begin_with_a_dash");
    folder.write("-list", &folder.read("list"));
    let report = folder.tares(&format!("build {R1} -- -list --out")).done();
    assert_eq!(report, "5 lines, 12 buckets\n");
    assert!(folder.read("--out") == folder.read("image"));
}
