//! A signal that ends the program while it writes a file.

use reference::generate::list_of;

use super::watch::{Strike, Watched, ENDING, HANGUP, INTERRUPT, TERMINATE};
use crate::run::{Folder, R1};

/// Until the file gets its name the place stays as it was; then it is whole.
/// Nothing is left beside it, and the program ends by the signal.
#[test]
fn ended() {
    let folder = Folder::sample_yard("signals_ended");
    let image = folder.read("image");
    for signal in ENDING {
        for (call, whole) in [("write", false), ("file", false), ("rename", true), ("folder", true)]
        {
            folder.write("out", b"older");
            // No memory is dumped by a quit.
            let script = format!("ulimit -c 0; exec tares build list out {R1}");
            let run = folder.struck(&script, call, Strike::Signal(signal));
            assert_eq!((run.signal, &*run.err), (Some(signal), ""), "{call}");
            let expected = if whole { &image } else { &b"older".to_vec() };
            assert!(folder.read("out") == *expected, "signal {signal} at {call}");
            assert_eq!(folder.names(), ["image", "list", "out"]);
        }
    }
}

/// A long file is not written to its end first.
#[test]
fn ended_early() {
    let folder = Folder::new("signals_ended_early");
    folder.write("list", &list_of(&vec![7; 40_000]));
    let script = "exec tares build list out --n 2 --p 1 --layout 1 --copies 4";
    let writes = |run: Watched| run.calls.iter().filter(|call| call.starts_with("write")).count();
    let run = folder.struck(script, "write", Strike::Signal(TERMINATE));
    assert_eq!(run.signal, Some(TERMINATE));
    assert_eq!(writes(run), 1);
    assert_eq!(folder.names(), ["list"]);
    assert!(writes(folder.shell(script)) > 10);
    assert_eq!(folder.names(), ["list", "out"]);
}

/// A signal that the program was started to ignore changes nothing.
#[test]
fn ignored() {
    let folder = Folder::sample_yard("signals_ignored");
    for signal in [HANGUP, INTERRUPT] {
        for call in ["write", "file", "rename", "folder"] {
            let script = format!("trap '' {signal}; exec tares build list out {R1}");
            folder.struck(&script, call, Strike::Signal(signal)).done("5 lines, 12 buckets\n");
            assert!(folder.read("out") == folder.read("image"));
            assert_eq!(folder.names(), ["image", "list", "out"]);
        }
    }
}
