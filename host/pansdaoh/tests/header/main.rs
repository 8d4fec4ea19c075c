//! The C header: programs in C and C++ compile with it and run with the library,
//! and what it says of the library beside the calls' answers is so.

use std::path::{Path, PathBuf};
use std::process::Command;

const FOLDER: &str = env!("CARGO_MANIFEST_DIR");
const HEADER: &str = include_str!("../../../../include/pansdaoh.h");

fn include() -> PathBuf {
    Path::new(FOLDER).join("../../include")
}

fn library() -> PathBuf {
    Path::new(env!("PANSDAOH_FOLDER")).join("libpansdaoh.a")
}

/// The compiler that an environment variable names, or else the system's, told
/// to spare no warning.
fn compiler(variable: &str, system: &str) -> Command {
    let mut compiler = Command::new(std::env::var_os(variable).unwrap_or(system.into()));
    compiler.args(["-Wall", "-Wextra", "-Wpedantic", "-Wshadow", "-Werror", "-I"]).arg(include());
    compiler
}

fn c_compiler() -> Command {
    compiler("CC", "cc")
}

/// Standard output of a program that ends well.
fn output(program: &mut Command) -> String {
    let output = program.output().unwrap();
    let messages = String::from_utf8(output.stderr).unwrap();
    assert!(output.status.success(), "{program:?}: {messages}");
    String::from_utf8(output.stdout).unwrap()
}

/// Compiles a program of this folder and links it with the library.
fn link(compiler: &mut Command, source: &str, name: &str) -> PathBuf {
    let program = Path::new(env!("CARGO_TARGET_TMPDIR")).join(name);
    compiler.arg(Path::new(FOLDER).join("tests/header").join(source));
    // Not in the language of the source.
    compiler.args(["-x", "none"]).arg(library()).arg("-o").arg(&program);
    assert_eq!(output(compiler), "");
    program
}

/// The header alone, and a program that uses each call, in C and C++ of two
/// years each.
#[test]
fn compiles_and_links() {
    for (variable, system, language, standard) in [
        ("CC", "cc", "c", "c99"),
        ("CC", "cc", "c", "c11"),
        ("CXX", "c++", "c++", "c++11"),
        ("CXX", "c++", "c++", "c++17"),
    ] {
        let compiler = || {
            let mut compiler = compiler(variable, system);
            compiler.args(["-x", language, &format!("-std={standard}")]);
            compiler
        };
        output(compiler().arg("-fsyntax-only").arg(include().join("pansdaoh.h")));
        let program = link(&mut compiler(), "table.c", standard);
        assert_eq!(output(&mut Command::new(program)), include_str!("../../../sample/table"));
    }
}

/// Each number has a name, and its condition is that of the refusal in Rust.
#[test]
fn refusals() {
    let lines: Vec<&str> = HEADER.lines().map(str::trim).collect();
    for number in 1..=17 {
        let named = |line: &&str| {
            line.starts_with("PANSDAOH_REFUSED_")
                && line.trim_end_matches(',').ends_with(&format!("= {number}"))
        };
        let place = lines.iter().position(named).unwrap();
        let condition = pansdaoh::Refusal { number, place: 0 }.condition();
        assert!(lines[place - 1].starts_with(&format!("/* {condition}")), "{}", lines[place - 1]);
    }
}

#[test]
fn version() {
    let number = |name| {
        let (_, rest) = HEADER.split_once(&format!("#define PANSDAOH_VERSION_{name} ")).unwrap();
        rest.lines().next().unwrap()
    };
    let version = format!("{}.{}.{}", number("MAJOR"), number("MINOR"), number("PATCH"));
    assert_eq!(version, env!("CARGO_PKG_VERSION"));
}

#[test]
fn outside_symbols() {
    let symbols = output(Command::new("nm").arg("-u").arg(library()));
    let symbols: Vec<&str> = symbols.lines().filter_map(|line| line.split(" U ").nth(1)).collect();
    assert!(symbols.is_empty(), "{symbols:?}");
}

/// Bytes of code and constants.
fn size(file: &Path) -> usize {
    let table = output(Command::new("size").arg(file));
    table.lines().nth(1).unwrap().split_whitespace().next().unwrap().parse().unwrap()
}

#[test]
fn code_size() {
    let words = HEADER.replace("\n * ", " ");
    let claimed = |before: &str| -> usize {
        let (_, rest) = words.split_once(before).unwrap();
        1024 * rest.split(' ').next().unwrap().parse::<usize>().unwrap()
    };
    let whole = size(&library());
    assert!(whole <= claimed("Code and constants take less than "), "{whole}");
    let mut compiler = c_compiler();
    compiler.args(["-Os", "-ffreestanding", "-fno-asynchronous-unwind-tables", "-nostdlib"]);
    compiler.args(["-static", "-Wl,-e,listens", "-Wl,--gc-sections"]);
    let listens = size(&link(&mut compiler, "listens.c", "listens"));
    let calls = "(start, step, lost, heard, elapsed, line) less than ";
    assert!(listens <= claimed(calls), "{listens}");
    assert!(listens < whole / 2, "{listens} of {whole}");
}

/// Each figure is at least what was measured, and no more than four times that;
/// lost has no figure but needs less than step.
#[test]
fn stack() {
    let mut compiler = c_compiler();
    // With all symbols found before the program runs.
    compiler.args(["-std=gnu11", "-O2", "-Wl,-z,now"]);
    let figures = output(&mut Command::new(link(&mut compiler, "stack.c", "stack")));
    let calls: Vec<&str> = figures.lines().map(|line| line.split(' ').next().unwrap()).collect();
    let all = [
        "build",
        "size",
        "arrive",
        "take_out",
        "mean",
        "read_back",
        "lookup",
        "step",
        "lost",
        "line",
    ];
    assert_eq!(calls, all);
    for line in figures.lines() {
        let numbers: Vec<u64> = line.split(' ').skip(1).map(|word| word.parse().unwrap()).collect();
        let (measured, claimed) = (numbers[0], numbers[1]);
        let most = if line.starts_with("lost ") { u64::MAX } else { 4 * measured };
        assert!(measured <= claimed && claimed <= most, "{line}");
    }
}
