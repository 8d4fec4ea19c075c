//! The gate `.ci/run`, with other programs in the place of rt and cargo: all is
//! run whatever fails, and the status and the last line tell.

use std::fs;
use std::os::unix::fs::PermissionsExt;
use std::path::Path;
use std::process::Command;

const GATE: &str = include_str!("../../../.ci/run");

/// What each program writes, and the status with which it ends.
const RT: &str = r#"#!/bin/sh
echo "rt $*"
[ "$1" = ci ] || { basename "$PWD"; exit $LIB; }
[ $CI = 0 ] && echo "rt: ok; must-fail edits: 5 refused$BAD"
[ $CI = 0 ] && echo "7 passed, 0 failed" || echo "6 passed, 1 failed"
exit $CI
"#;
const CARGO: &str = r#"#!/bin/sh
echo "cargo $1 in $(basename "$PWD")"
exit $CARGO
"#;

/// Runs the gate with these statuses of `rt lib`, `cargo test` and `rt ci`: its
/// own, and the lines written.
fn gate(lib: i32, cargo: i32, ci: i32) -> (i32, Vec<String>) {
    gate_with("statuses", lib, cargo, ci, "")
}

/// The same in a folder of this name, where `rt ci` says this behind the number
/// of edits refused.
fn gate_with(name: &str, lib: i32, cargo: i32, ci: i32, bad: &str) -> (i32, Vec<String>) {
    let folder = Path::new(env!("CARGO_TARGET_TMPDIR")).join("gate").join(name);
    for (name, script) in [
        (".ci/run", GATE),
        ("bin/rt", RT),
        ("bin/cargo", CARGO),
        ("crates/pansdaoh/x", ""),
        ("host/x", ""),
    ] {
        let path = folder.join(name);
        fs::create_dir_all(path.parent().unwrap()).unwrap();
        fs::write(&path, script).unwrap();
        fs::set_permissions(&path, fs::Permissions::from_mode(0o755)).unwrap();
    }
    let path = format!("{}:{}", folder.join("bin").display(), std::env::var("PATH").unwrap());
    let mut gate = Command::new("bash");
    gate.arg(folder.join(".ci/run")).env("PATH", path).env("BAD", bad);
    for (name, status) in [("LIB", lib), ("CARGO", cargo), ("CI", ci)] {
        gate.env(name, status.to_string());
    }
    let output = gate.output().unwrap();
    let lines = String::from_utf8(output.stdout).unwrap();
    (output.status.code().unwrap(), lines.lines().map(String::from).collect())
}

#[test]
fn last_line_and_status() {
    let (status, lines) = gate(0, 0, 0);
    assert_eq!(status, 0);
    let ok = "rt: ok; must-fail edits: 5 refused";
    let lib = ["rt lib --cpu x86-64", "pansdaoh"];
    let rest = ["cargo test in host", "rt ci", ok, "7 passed, 0 failed"];
    assert_eq!(lines, [&lib[..], &rest[..]].concat());

    let (status, lines) = gate(0, 0, 3);
    assert_eq!((status, lines.last().unwrap().as_str()), (3, "6 passed, 1 failed"));

    for (lib, cargo, ci) in [(0, 101, 0), (0, 101, 3), (1, 0, 0), (1, 0, 3)] {
        let (status, lines) = gate(lib, cargo, ci);
        assert_eq!(status, 1);
        assert!(lines.contains(&"rt ci".to_string()), "{lines:?}");
        assert_eq!(lines.contains(&"cargo test in host".to_string()), lib == 0, "{lines:?}");
        assert!(lines.last().unwrap().starts_with("The host's tests failed"), "{lines:?}");
    }
}

/// A bad edit, one that cannot be applied, compiled or read, counts for nothing:
/// the gate fails.
#[test]
fn bad_edits() {
    let (status, lines) = gate_with("edits", 0, 0, 0, ", 1 bad; done in this run: all");
    assert_eq!(status, 1);
    assert!(lines.last().unwrap().starts_with("A must-fail edit was bad"), "{lines:?}");

    let (status, lines) = gate_with("edits", 0, 0, 0, "; done in this run: 5 of the 8 proofs");
    assert_eq!((status, lines.last().unwrap().as_str()), (0, "7 passed, 0 failed"));
}
