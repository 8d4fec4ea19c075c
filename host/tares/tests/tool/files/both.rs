//! A list and its cycle, changed together: each whole or not at all, the image first.

use std::fs;
use std::os::unix::fs::{symlink, PermissionsExt};
use std::process::{Command, Stdio};
use std::thread::sleep;
use std::time::Duration;

use super::watch::{Strike, ENDING};
use crate::run::{Folder, R1};

const EIO: i32 = 5;

/// A sample yard, and what its files hold before a change and after it.
struct Yard {
    folder: Folder,
    /// Image and list.
    before: [Vec<u8>; 2],
    after: [Vec<u8>; 2],
}

const ADD: &str = "tares add list image 4 8300 12 7";
const REPORT: &str = "added as line 2; 6 lines, 13 buckets, k 3, D 6\n";

impl Yard {
    fn new(name: &str) -> Yard {
        let folder = Folder::sample_yard(name);
        let files = || ["image", "list"].map(|name| folder.read(name));
        let before = files();
        folder.shell(&format!("{ADD} {R1}")).done(REPORT);
        let after = files();
        let yard = Yard { folder, before, after };
        yard.restore();
        yard
    }

    fn restore(&self) {
        self.folder.write("image", &self.before[0]);
        self.folder.write("list", &self.before[1]);
    }

    /// Whether image and list are those after the change; either is old or new, and nothing else is
    /// there.
    fn changed(&self) -> [bool; 2] {
        assert_eq!(self.folder.names(), ["image", "list"]);
        [0, 1].map(|i| {
            let file = self.folder.read(["image", "list"][i]);
            assert!(file == self.before[i] || file == self.after[i]);
            file == self.after[i]
        })
    }
}

/// Both are on the disk before the image gets its place, and the image has it before the list.
#[test]
fn flushed() {
    let yard = Yard::new("both_flushed");
    let run = yard.folder.shell(&format!("umask 022; exec {ADD} {R1}"));
    run.done(REPORT);
    let beside = |call: usize| run.calls[call].split(' ').nth(1).unwrap();
    let (image, list) = (beside(0), beside(3));
    let expected = [
        &*format!("create {image} 644"),
        "write 644",
        "flush file",
        &*format!("create {list} 644"),
        "write 644",
        "flush file",
        &*format!("rename {image} image"),
        "flush folder",
        &*format!("rename {list} list"),
        "flush folder",
    ];
    assert_eq!(run.calls, expected);
    assert_eq!(yard.changed(), [true, true]);
}

/// What is said behind an error: what is changed, and whether the command may be given again.
const IMAGE_WRITTEN: &str =
    "\nthe image is written already, and the list is as it was: the same command once more changes both\n";
const BOTH_WRITTEN: &str = "\nthe list and its image are changed\n";

/// Whichever call fails, the list is not changed without its image, and what is changed is told.
#[test]
fn failed_calls() {
    let yard = Yard::new("both_failed_calls");
    for (call, passed, named, changed) in [
        ("write", 0, "image", [false, false]),
        ("file", 0, "image", [false, false]),
        ("write", 1, "list", [false, false]),
        ("file", 1, "list", [false, false]),
        ("rename", 0, "image", [false, false]),
        ("folder", 0, "image", [true, false]),
        ("rename", 1, "list", [true, false]),
        ("folder", 1, "list", [true, true]),
    ] {
        let script = format!("exec {ADD} {R1}");
        let run = yard.folder.struck_after(&script, call, passed, Strike::Error(EIO));
        run.failed(&format!("cannot write {named}: Input/output error"));
        assert_eq!(yard.changed(), changed, "{call} {passed}");
        let told = [IMAGE_WRITTEN, BOTH_WRITTEN].map(|told| run.err.ends_with(told));
        assert_eq!(told, [changed == [true, false], changed == [true, true]], "{}", run.err);
        if !changed[1] {
            yard.folder.shell(&script).done(REPORT);
            assert_eq!(yard.changed(), [true, true]);
        }
        yard.restore();
    }
}

/// A signal ends the tool before either is changed, or after both are, which is told.
#[test]
fn ended() {
    let yard = Yard::new("both_ended");
    for signal in ENDING {
        for (call, passed, changed) in [
            ("write", 0, false),
            ("file", 0, false),
            ("write", 1, false),
            ("file", 1, false),
            ("rename", 0, true),
            ("folder", 0, true),
            ("rename", 1, true),
            ("folder", 1, true),
        ] {
            let script = format!("ulimit -c 0; exec {ADD} {R1}");
            let run = yard.folder.struck_after(&script, call, passed, Strike::Signal(signal));
            let told =
                if changed { format!("tares: {}", &BOTH_WRITTEN[1..]) } else { String::new() };
            assert_eq!((run.signal, run.err), (Some(signal), told), "{call} {passed}");
            assert_eq!(yard.changed(), [changed; 2], "signal {signal} at {call} {passed}");
            yard.restore();
        }
    }
}

/// Where the image or the list is standard output, what a file has got is told before a signal ends
/// the tool.
#[test]
fn ended_with_standard_output() {
    let yard = Yard::new("both_ended_with_standard_output");
    for (words, changed, told) in [
        ("add list - 4 8300 12 7", [false, true], BOTH_WRITTEN),
        ("add - image 4 8300 12 7", [true, false], IMAGE_WRITTEN),
    ] {
        let script = format!("exec tares {words} {R1} <list >/dev/null");
        let run = yard.folder.struck(&script, "rename", Strike::Signal(ENDING[3]));
        assert_eq!((run.signal, run.err), (Some(ENDING[3]), format!("tares: {}", &told[1..])));
        assert_eq!(yard.changed(), changed);
        yard.restore();
    }
}

/// Lists in different folders, with other permissions and behind links.
#[test]
fn links_and_permissions() {
    let yard = Yard::new("both_links_and_permissions");
    let folder = Folder::new("both_links");
    fs::create_dir(folder.path("lists")).unwrap();
    symlink("lists/yard", folder.path("list")).unwrap();
    symlink("later", folder.path("image")).unwrap();
    folder.write("lists/yard", &yard.before[1]);
    fs::set_permissions(folder.path("lists/yard"), fs::Permissions::from_mode(0o640)).unwrap();
    folder.shell(&format!("umask 022; exec {ADD} {R1}")).done(REPORT);
    assert!(["later", "lists/yard"].map(|name| folder.read(name)) == yard.after);
    assert_eq!(folder.names(), ["image", "later", "list", "lists"]);
    for (name, mode) in [("lists/yard", 0o640), ("later", 0o644)] {
        let permissions = fs::metadata(folder.path(name)).unwrap().permissions();
        assert_eq!(permissions.mode() & 0o7777, mode);
    }
}

/// One file cannot be both, by whatever names.
#[test]
fn one_file() {
    let yard = Yard::new("both_one_file");
    symlink("list", yard.folder.path("link")).unwrap();
    fs::hard_link(yard.folder.path("list"), yard.folder.path("hard")).unwrap();
    for image in ["list", "./list", "link", "hard"] {
        let text = yard.folder.tares(&format!("add list {image} 4 8300 12 7 {R1}")).wrong();
        assert_eq!(text, "tares: LIST and IMAGE are one file\n");
    }
    for name in ["link", "hard"] {
        fs::remove_file(yard.folder.path(name)).unwrap();
    }
    assert_eq!(yard.changed(), [false, false]);
}

/// An image that goes to a device, or a report that cannot be written.
#[test]
fn devices() {
    let yard = Yard::new("both_devices");
    let text = yard.folder.tares(&format!("add list /dev/full 4 8300 12 7 {R1}")).wrong();
    assert!(text.starts_with("tares: cannot write /dev/full: No space left"), "{text}");
    assert_eq!(yard.changed(), [false, false]);
    let run = yard.folder.shell(&format!("exec {ADD} {R1} >/dev/full"));
    run.failed("cannot write standard output: No space left on device");
    assert!(run.err.ends_with(BOTH_WRITTEN), "{}", run.err);
    assert_eq!(yard.changed(), [true, true]);
}

/// A list that cannot be replaced is not taken for one that was changed.
#[test]
fn lists_that_are_no_files() {
    let yard = Yard::new("both_lists_that_are_no_files");
    let words = format!("image 4 8300 12 7 {R1}");
    for script in [
        format!("mkfifo fifo; tares add fifo {words}; status=$?; rm fifo; exit $status"),
        format!("cat list | tares add /dev/stdin {words}"),
        format!("tares remove /dev/null {words}"),
    ] {
        let run = yard.folder.shell(&script);
        run.failed("LIST is changed, so it is a file, or - to go from standard input to output");
        assert_eq!(yard.changed(), [false, false], "{script}");
    }
}

/// Commands that write a list, or build one into a file, wait while another has the folder; others do
/// not.
#[test]
fn waiting() {
    let yard = Yard::new("both_waiting");
    yard.folder.write("csv", b"tag,tare,material,weighing\n");
    for (words, waits) in [
        (format!("add list image 4 8300 12 7 {R1}"), true),
        (format!("remove list image 4 8300 12 7 {R1}"), true),
        (format!("build list image {R1}"), true),
        (format!("read image list {R1} --force"), true),
        ("import csv list".to_string(), true),
        (format!("build list - {R1}"), false),
        (format!("check list image {R1}"), false),
    ] {
        let folder = fs::File::open(yard.folder.path("")).unwrap();
        folder.lock().unwrap();
        let mut tool = Command::new(env!("CARGO_BIN_EXE_tares"));
        tool.args(words.split(' ')).current_dir(yard.folder.path("")).stdout(Stdio::null());
        let mut tool = tool.stderr(Stdio::null()).spawn().unwrap();
        if waits {
            sleep(Duration::from_millis(100));
            assert_eq!(tool.try_wait().unwrap(), None, "{words}");
            drop(folder);
        }
        tool.wait().unwrap();
    }
}

/// Nor do those at the two ends of a pipe wait for each other.
#[test]
fn ends_of_a_pipe() {
    let yard = Yard::new("both_ends_of_a_pipe");
    let commands = format!("tares read image fifo {R1} & tares build fifo copy {R1} && wait");
    let run = yard.folder.shell(&format!("mkfifo fifo; timeout 10 sh -c '{commands}' && rm fifo"));
    assert_eq!((run.status, &*run.err), (Some(0), ""));
    assert!(yard.folder.read("copy") == yard.before[0]);
}

/// Changes made at the same time wait for each other, so that none is lost.
#[test]
fn at_the_same_time() {
    let yard = Yard::new("both_at_the_same_time");
    let run = yard.folder.shell(&format!(
        "for tag in $(seq 101 130); do tares add list image $tag 8300 12 $tag {R1} & done; wait"
    ));
    assert_eq!((run.status, &*run.err), (Some(0), ""));
    let text = yard.folder.tares("check list image").done();
    assert!(text.starts_with("right: 35 lines, "), "{text}");
    assert_eq!(yard.folder.names(), ["image", "list"]);
}
