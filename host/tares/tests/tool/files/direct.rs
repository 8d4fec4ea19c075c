//! Standard output, devices and pipes: written to directly, and an error there
//! is an error of the command.

use std::fs;
use std::os::unix::fs::FileTypeExt;
use std::process::{Command, Stdio};

use crate::run::{Folder, R1};

/// Each command's words, standard output taking its result or its report.
fn commands() -> [String; 17] {
    [
        format!("build list - {R1}"),
        format!("build list out {R1}"),
        format!("read image - {R1}"),
        format!("read image out {R1} --force"),
        "lookup image 5 --tune-in 0".into(),
        "lookup image 5 --tune-in 0 out".into(),
        "table image 5".into(),
        format!("check list image {R1}"),
        "show image".into(),
        "follow image 5 --tune-in 0".into(),
        format!("size --lines 5 {R1}"),
        "size --lines 5 --n 2 --p 1".into(),
        format!("mean list {R1}"),
        "mean list --n 2 --p 1 --compare".into(),
        "follow image 5 --tune-in 0 --lost 6".into(),
        "--version".into(),
        "--help".into(),
    ]
}

#[test]
fn full_standard_output() {
    let folder = Folder::sample_yard("full_standard_output");
    for words in commands() {
        let run = folder.shell(&format!("exec tares {words} >/dev/full"));
        run.failed("cannot write standard output: No space left on device");
    }
}

#[test]
fn closed_pipe() {
    let folder = Folder::sample_yard("closed_pipe");
    for words in commands() {
        let (reader, writer) = std::io::pipe().unwrap();
        drop(reader);
        let mut tool = Command::new(env!("CARGO_BIN_EXE_tares"));
        tool.args(words.split(' ')).current_dir(folder.path(""));
        let output = tool.stdout(Stdio::from(writer)).output().unwrap();
        let message = String::from_utf8(output.stderr).unwrap();
        assert_eq!(output.status.code(), Some(2), "{words}: {message}");
        assert!(
            message.starts_with("tares: cannot write standard output: Broken pipe"),
            "{message}"
        );
    }
}

#[test]
fn size_limit() {
    let folder = Folder::sample_yard("size_limit_of_standard_output");
    let run = folder.shell(&format!("ulimit -f 1; exec tares build list - {R1} >out"));
    run.failed("cannot write standard output: File too large");
}

/// A device is written to, not replaced.
#[test]
fn devices() {
    let folder = Folder::sample_yard("devices");
    let report = folder.tares(&format!("build list /dev/null {R1}")).done();
    assert_eq!(report, "5 lines, 12 buckets\n");
    assert!(fs::metadata("/dev/null").unwrap().file_type().is_char_device());
    let text = folder.tares(&format!("build list /dev/full {R1}")).wrong();
    assert!(text.starts_with("tares: cannot write /dev/full: No space left"), "{text}");
    assert!(fs::metadata("/dev/full").unwrap().file_type().is_char_device());
}

/// Pipes by name: a fifo, and one that a shell has open.
#[test]
fn pipes() {
    let folder = Folder::sample_yard("pipes");
    let image = folder.read("image");
    let run = folder.shell(&format!(
        "mkfifo fifo; cat fifo >through & tares build list fifo {R1} && wait && rm fifo"
    ));
    run.done("5 lines, 12 buckets\n");
    assert!(folder.read("through") == image);
    let run = folder.shell(&format!("tares build list /dev/fd/3 {R1} 3>&1 >&2 | cat"));
    assert_eq!((run.status, &*run.err), (Some(0), "5 lines, 12 buckets\n"));
    assert!(run.out == image);
    assert_eq!(folder.names(), ["image", "list", "through"]);
}
