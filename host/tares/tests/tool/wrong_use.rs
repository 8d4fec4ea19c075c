use crate::run::{Folder, R1};

/// Runs a command line that is wrong, and compares the message.
fn compare(folder: &Folder, words: &str, message: &str) {
    let text = folder.tares(words).wrong();
    assert!(text.starts_with(&format!("tares: {message}")), "{words}: {text}");
    let command = words.split(' ').next().unwrap();
    let help = match command {
        "" | "send" | "help" | "--n" => "\nTry: tares --help\n".to_string(),
        _ => format!("\nTry: tares {command} --help\n"),
    };
    assert!(text.ends_with(&help), "{words}: {text}");
    assert_eq!(folder.names(), ["image", "list"]);
}

#[test]
fn options() {
    let folder = Folder::sample_yard("wrong_use_options");
    let without_copies = "--n 2 --p 1 --layout 1";
    for (words, message) in [
        ("", "no command given"),
        ("send list", "no command send"),
        ("help send", "no command send"),
        ("help build list", "one word too many: list"),
        ("--n 2", "no command --n"),
        ("build", "LIST is missing"),
        (&format!("build list {R1}"), "IMAGE is missing"),
        (&format!("build list out more {R1}"), "one word too many: more"),
        (&format!("build list out {without_copies}"), "--copies is missing"),
        (&format!("build list out {without_copies} --copies"), "--copies needs a number"),
        (&format!("build list out {R1} --n 2"), "--n is given twice"),
        (&format!("build list out {R1} --m 2"), "no option --m"),
        (&format!("build list out {R1} -n 2"), "no option -n"),
        (&format!("build list out {R1} --tune-in 2"), "no option --tune-in"),
        (&format!("build list out {R1} --force"), "no option --force"),
        (&format!("build -- list out {R1}"), "--n is missing"),
        (&format!("build {R1} -- list out --"), "one word too many: --"),
        (&format!("build list out {without_copies} --copies one"), "--copies is no number"),
        (&format!("build list out {without_copies} --copies -1"), "--copies is no number"),
        (&format!("build list out {without_copies} --copies +1"), "--copies is no number"),
        (&format!("build list out {without_copies} --copies="), "--copies is no number"),
        // The first word that is wrong.
        ("build --n two", "--n is no number"),
        ("build list out --n two --n 2", "--n is no number"),
        ("build list out --n two --m 2 --help", "--n is no number"),
        (
            &format!("build list out {without_copies} --copies 18446744073709551616"),
            "--copies is no number from 0 to 18446744073709551615: 18446744073709551616",
        ),
    ] {
        compare(&folder, words, message);
    }
}

#[test]
fn operands() {
    let folder = Folder::sample_yard("wrong_use_operands");
    for (words, message) in [
        ("read", "IMAGE is missing"),
        (&format!("read image {R1}"), "OUT is missing"),
        (&format!("read image out {R1} --force=1"), "--force takes no value"),
        ("read image out", "--n is missing"),
        ("check list", "IMAGE is missing"),
        ("check - -", "LIST and IMAGE are both standard input"),
        ("check list image --tune-in 0", "no option --tune-in"),
        ("import csv", "LIST is missing"),
        ("import csv list --n 2", "no option --n"),
        (&format!("add {R1}"), "LIST is missing"),
        (&format!("add list image 5 0 0 {R1}"), "WEIGHING is missing"),
        (&format!("add list image 5 0 0 0 0 {R1}"), "one word too many: 0"),
        (&format!("add list image 5 1.5 0 0 {R1}"), "TARE is no number"),
        (&format!("add - - 5 0 0 0 {R1}"), "LIST and IMAGE are both standard output"),
        (&format!("add list image 5 0 0 0 {R1} --force"), "no option --force"),
        (&format!("remove list image 5 0 {R1}"), "MATERIAL is missing"),
        (&format!("remove - - 5 0 0 0 {R1}"), "LIST and IMAGE are both standard output"),
        ("remove list image 5 0 0 0", "--n is missing"),
        ("size --n 2 --p 1", "--lines is missing"),
        ("size --lines 5 --n 2", "--p is missing"),
        ("size --lines 5 --n 2 --p 1 --layout 1", "--copies is missing"),
        ("size --lines 5 --n 2 --p 1 --copies 1", "--layout is missing"),
        (&format!("size --lines 5 {R1} --in two"), "--in is no number"),
        (&format!("size 5 --lines 5 {R1}"), "one word too many: 5"),
        ("mean --n 2 --p 1 --compare", "LIST is missing"),
        ("mean list --n 2 --p 1 --copies 1", "--layout is missing"),
        ("mean list --n 2 --p 1 --layout 1 --compare", "--copies is missing"),
        ("mean list --n 2 --compare", "--p is missing"),
        (&format!("mean list image {R1}"), "one word too many: image"),
        ("lookup image --tune-in 0", "TAG is missing"),
        ("lookup image 5", "--tune-in is missing"),
        ("lookup image five --tune-in 0", "TAG is no number"),
        ("lookup image 5 --tune-in 0 out more", "one word too many: more"),
        ("follow image 5", "--tune-in is missing"),
        ("follow image 5 --tune-in 0 out", "one word too many: out"),
        ("follow image 5 --tune-in 0 --lost", "--lost needs a number"),
        (
            "follow image 5 --tune-in 0 --lost=",
            "--lost takes numbers with commas between them alone: ",
        ),
        (
            "follow image 5 --tune-in 0 --lost 3,",
            "--lost takes numbers with commas between them alone: ",
        ),
        (
            "follow image 5 --tune-in 0 --lost 3;4",
            "--lost takes numbers with commas between them alone: ",
        ),
        ("lookup image 5 --tune-in 0 --lost 3", "no option --lost"),
        ("table image", "TAG is missing"),
        ("table image 5 out", "one word too many: out"),
        ("table image 5 --tune-in 0", "no option --tune-in"),
        ("show", "IMAGE is missing"),
        ("show image one", "BUCKET is no number"),
        ("show image 1-", "BUCKET is no number"),
        ("show image 3-2", "3-2 is no range: 3 is above 2"),
        ("show image 1 2", "one word too many: 2"),
    ] {
        compare(&folder, words, message);
    }
    for words in ["show image 10-12", "follow image 5 --tune-in 0 --lost 3,12"] {
        let text = folder.tares(words).wrong();
        assert_eq!(text, "tares: no bucket 12: the last one is 11\n");
    }
}
