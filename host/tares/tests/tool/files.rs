mod both;
mod direct;
mod signals;
mod watch;
mod whole;

use reference::generate::list_of;

use crate::run::{Folder, R1};

#[test]
fn input_that_cannot_be_read() {
    let folder = Folder::sample_yard("input_that_cannot_be_read");
    for words in [
        &format!("build none out {R1}"),
        &format!("read none out {R1}"),
        "lookup none 5 --tune-in 0 out",
        "table none 5",
        &format!("add none out 5 0 0 0 {R1}"),
        &format!("mean none {R1}"),
    ] {
        let text = folder.tares(words).wrong();
        assert!(text.starts_with("tares: cannot read none: "), "{text}");
    }
    let text = folder.tares("table . 5").wrong();
    assert!(text.starts_with("tares: cannot read .: "), "{text}");
    assert_eq!(folder.names(), ["image", "list"]);
}

#[test]
fn output_that_cannot_be_written() {
    let folder = Folder::sample_yard("output_that_cannot_be_written");
    for out in ["none/out", ".", "list/out"] {
        for words in [
            &format!("build list {out} {R1}"),
            &format!("read image {out} {R1}"),
            &format!("lookup image 5 --tune-in 0 {out}"),
            &format!("add list {out} 5 0 0 0 {R1}"),
        ] {
            let text = folder.tares(words).wrong();
            assert!(text.starts_with(&format!("tares: cannot write {out}: ")), "{text}");
        }
    }
    assert_eq!(folder.names(), ["image", "list"]);
    assert!(folder.read("list") == list_of(&[3, 5, 5, 8, 9]));
}

/// A longer file is replaced whole, and a file by itself.
#[test]
fn replaced_files() {
    let folder = Folder::sample_yard("replaced_files");
    let (list, image) = (folder.read("list"), folder.read("image"));
    folder.write("out", &vec![b'x'; 100_000]);
    folder.tares(&format!("build list out {R1}")).done();
    assert!(folder.read("out") == image);
    folder.tares(&format!("build list list {R1}")).done();
    assert!(folder.read("list") == image);
    folder.tares(&format!("read list list {R1} --force")).done();
    assert!(folder.read("list") == list);
    assert_eq!(folder.names(), ["image", "list", "out"]);
}

/// A refused command leaves its output file as it was.
#[test]
fn untouched_on_refusal() {
    let folder = Folder::sample_yard("untouched_on_refusal");
    folder.write("short", b"short");
    folder.write("kept", b"kept");
    for words in [
        &format!("build short kept {R1}"),
        "build list kept --n 9 --p 1 --layout 1 --copies 1",
        &format!("read short kept {R1}"),
        "read image kept --n 2 --p 1 --layout 1 --copies 2",
        "lookup image 5 --tune-in 12 kept",
        "lookup short 5 --tune-in 0 kept",
        &format!("add short kept 5 0 0 0 {R1}"),
        &format!("remove list kept 6 0 0 0 {R1}"),
    ] {
        folder.tares(words).refused();
        assert_eq!(folder.read("kept"), b"kept");
        folder.tares(&words.replace("kept", "none")).refused();
        folder.tares(&words.replace("kept", "-")).refused();
        assert_eq!(folder.names(), ["image", "kept", "list", "short"]);
    }
}
