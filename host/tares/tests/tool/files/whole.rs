//! A file is written whole or not at all, and nothing is left beside it.

use std::fs;
use std::os::unix::fs::{symlink, PermissionsExt};

use super::watch::Strike;
use crate::run::{Folder, R1};

const EIO: i32 = 5;

/// A sample yard in which `out` is an older file.
fn older_out(name: &str) -> Folder {
    let folder = Folder::sample_yard(name);
    folder.write("out", b"older");
    folder
}

/// The limit strikes in the middle of the image.
#[test]
fn size_limit() {
    let folder = older_out("size_limit");
    for out in ["out", "none"] {
        let run = folder.shell(&format!("ulimit -f 1; exec tares build list {out} {R1}"));
        run.failed(&format!("cannot write {out}: File too large"));
        assert_eq!(folder.read("out"), b"older");
        assert_eq!(folder.names(), ["image", "list", "out"]);
    }
}

#[test]
fn failed_calls() {
    let folder = older_out("failed_calls");
    for call in ["write", "file", "rename"] {
        for out in ["out", "none"] {
            let script = format!("exec tares build list {out} {R1}");
            let run = folder.struck(&script, call, Strike::Error(EIO));
            run.failed(&format!("cannot write {out}: Input/output error"));
            assert_eq!(folder.read("out"), b"older");
            assert_eq!(folder.names(), ["image", "list", "out"]);
        }
    }
    // The file has its place, but a power cut could still undo that.
    let run =
        folder.struck(&format!("exec tares build list out {R1}"), "folder", Strike::Error(EIO));
    run.failed("cannot write out: Input/output error");
    assert!(folder.read("out") == folder.read("image"));
    // A name that no file can have.
    folder.shell(&format!("exec tares build list none/ {R1}")).failed("cannot write none/: ");
    assert_eq!(folder.names(), ["image", "list", "out"]);
}

/// Bytes reach the disk before the file gets its name, and the name after that.
#[test]
fn flushed() {
    let folder = older_out("flushed");
    for out in ["out", "none"] {
        let run = folder.shell(&format!("umask 022; exec tares build list {out} {R1}"));
        run.done("5 lines, 12 buckets\n");
        let beside = run.calls[0].split(' ').nth(1).unwrap();
        let expected = [
            &*format!("create {beside} 644"),
            "write 644",
            "flush file",
            &*format!("rename {beside} {out}"),
            "flush folder",
        ];
        assert_eq!(run.calls, expected);
    }
}

/// The new file has the permissions of the one that it replaces, before it has
/// bytes, and never wider ones.
#[test]
fn permissions() {
    let folder = older_out("permissions");
    for (umask, former, created) in [
        ("022", Some(0o600), 0o600),
        ("022", Some(0o640), 0o640),
        ("077", Some(0o664), 0o600),
        ("000", Some(0o600), 0o600),
        ("022", None, 0o644),
        ("077", None, 0o600),
    ] {
        let _ = fs::remove_file(folder.path("out"));
        if let Some(former) = former {
            folder.write("out", b"older");
            fs::set_permissions(folder.path("out"), fs::Permissions::from_mode(former)).unwrap();
        }
        let run = folder.shell(&format!("umask {umask}; exec tares build list out {R1}"));
        run.done("5 lines, 12 buckets\n");
        let kept = former.unwrap_or(created);
        assert!(run.calls[0].ends_with(&format!(" {created:o}")), "{:?}", run.calls);
        assert_eq!(run.calls[1], format!("write {kept:o}"));
        let metadata = fs::metadata(folder.path("out")).unwrap();
        assert_eq!(metadata.permissions().mode() & 0o7777, kept);
    }
}

/// Names that the new file could have are taken, by a file and by a link.
#[test]
fn names_taken() {
    let folder = older_out("names_taken");
    let image = folder.read("image");
    folder.write("theirs", b"theirs");
    let run = folder.shell(&format!(
        "echo mine >.tares.$$; ln -s theirs .tares.$(($$ + 1)); echo $$ >number
         exec tares build list out {R1}"
    ));
    run.done("5 lines, 12 buckets\n");
    let number: u32 = String::from_utf8(folder.read("number")).unwrap().trim().parse().unwrap();
    assert!(run.calls[0].contains(&format!(".tares.{} ", number + 2)), "{:?}", run.calls);
    assert!(folder.read("out") == image);
    assert_eq!(folder.read(&format!(".tares.{number}")), b"mine\n");
    assert_eq!(folder.read("theirs"), b"theirs");
    let link = fs::read_link(folder.path(&format!(".tares.{}", number + 1))).unwrap();
    assert_eq!(link.to_str(), Some("theirs"));
    assert_eq!(folder.names().len(), 7);
}

/// A link stays one, and what it leads to is written: through more links, in
/// another folder, and where nothing is there yet.
#[test]
fn links() {
    let folder = older_out("links");
    let image = folder.read("image");
    fs::create_dir(folder.path("other")).unwrap();
    for (link, target, written) in [
        ("direct", "out", "out"),
        ("through", "direct", "out"),
        ("dangling", "later", "later"),
        ("other/dangling", "../later2", "later2"),
        ("into", "other/dangling", "later2"),
        ("other/into", "later", "other/later"),
    ] {
        symlink(target, folder.path(link)).unwrap();
        let _ = fs::remove_file(folder.path(written));
        for _ in 0..2 {
            folder
                .shell(&format!("exec tares build list {link} {R1}"))
                .done("5 lines, 12 buckets\n");
            assert!(folder.read(written) == image, "{link}");
            let kept = fs::read_link(folder.path(link)).unwrap();
            assert_eq!(kept.to_str(), Some(target));
            assert!(!fs::symlink_metadata(folder.path(written)).unwrap().is_symlink());
            fs::remove_file(folder.path(written)).unwrap();
            folder.write(written, b"older");
        }
    }
    symlink("none/out", folder.path("lost")).unwrap();
    symlink("round", folder.path("round")).unwrap();
    for link in ["lost", "round"] {
        folder
            .shell(&format!("exec tares build list {link} {R1}"))
            .failed(&format!("cannot write {link}: "));
        assert!(fs::symlink_metadata(folder.path(link)).unwrap().is_symlink());
    }
    let names = [
        "dangling", "direct", "image", "into", "later", "later2", "list", "lost", "other", "out",
        "round", "through",
    ];
    assert_eq!(folder.names(), names);
}
