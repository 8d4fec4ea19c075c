//! The request streams of the program `cases`: the same answers, byte for byte.

use std::fs::File;
use std::path::Path;
use std::process::Command;

#[test]
fn same_answers() {
    let folder = Path::new(env!("CARGO_MANIFEST_DIR")).join("../../crates/cases");
    let requests = File::open(folder.join("stdin")).unwrap();
    let output = Command::new(env!("CARGO_BIN_EXE_cases-reference")).stdin(requests).output();
    let answers = output.unwrap().stdout;
    assert!(answers == std::fs::read(folder.join("stdout")).unwrap());
}
