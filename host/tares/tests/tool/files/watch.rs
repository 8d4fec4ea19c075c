//! Runs of the tool by a shell, with the calls noted by which it writes a file.
#![deny(clippy::undocumented_unsafe_blocks)]

use std::ffi::c_int;
use std::fs;
use std::os::unix::process::{CommandExt, ExitStatusExt};
use std::path::{Path, PathBuf};
use std::process::Command;
use std::sync::OnceLock;

use crate::run::Folder;

pub const HANGUP: c_int = 1;
pub const INTERRUPT: c_int = 2;
pub const QUIT: c_int = 3;
pub const TERMINATE: c_int = 15;
/// The signals by which a person or the system ends a program.
pub const ENDING: [c_int; 4] = [HANGUP, INTERRUPT, QUIT, TERMINATE];

const SIG_DFL: usize = 0;

extern "C" {
    fn signal(signal: c_int, handler: usize) -> usize;
}

/// What happens at a call.
pub enum Strike {
    Signal(c_int),
    Error(i32),
}

/// What a run left: the status or the signal that ended it, both outputs, and
/// the calls noted.
pub struct Watched {
    pub status: Option<i32>,
    pub signal: Option<i32>,
    pub out: Vec<u8>,
    pub err: String,
    pub calls: Vec<String>,
}

/// The library to load before the C library.
fn watch() -> &'static Path {
    static WATCH: OnceLock<PathBuf> = OnceLock::new();
    WATCH.get_or_init(|| {
        let source = Path::new(env!("CARGO_MANIFEST_DIR")).join("tests/tool/files/watch.c");
        let library = Path::new(env!("CARGO_TARGET_TMPDIR")).join("watch.so");
        let mut compiler = Command::new(std::env::var_os("CC").unwrap_or("cc".into()));
        compiler.args(["-std=gnu11", "-Wall", "-Wextra", "-Werror", "-shared", "-fPIC", "-o"]);
        assert!(compiler.arg(&library).arg(source).arg("-ldl").status().unwrap().success());
        library
    })
}

/// A shell that each of the ending signals ends, even if the tests were started
/// with it ignored (`nohup`).
fn shell() -> Command {
    let mut shell = Command::new("sh");
    let defaults = || {
        for number in ENDING {
            // SAFETY: a signal's default action runs no code of ours.
            unsafe { signal(number, SIG_DFL) };
        }
        Ok(())
    };
    // SAFETY: it only calls `signal`, which is allowed between fork and exec.
    unsafe { shell.pre_exec(defaults) };
    shell
}

impl Folder {
    /// Runs a shell script that finds the tool by its name.
    pub fn shell(&self, script: &str) -> Watched {
        self.run_shell(script, None)
    }

    /// The same, with something that happens at the calls of a kind: write, file or
    /// folder (flushed), or rename.
    pub fn struck(&self, script: &str, call: &str, strike: Strike) -> Watched {
        self.struck_after(script, call, 0, strike)
    }

    /// The same, but for the first calls.
    pub fn struck_after(&self, script: &str, call: &str, passed: u64, strike: Strike) -> Watched {
        self.run_shell(script, Some((call, passed, strike)))
    }

    fn run_shell(&self, script: &str, strike: Option<(&str, u64, Strike)>) -> Watched {
        let notes = self.path("").with_extension("notes");
        fs::write(&notes, "").unwrap();
        let mut shell = shell();
        shell.arg("-c").arg(script).current_dir(self.path(""));
        let tool = Path::new(env!("CARGO_BIN_EXE_tares")).parent().unwrap();
        let path = format!("{}:{}", tool.display(), std::env::var("PATH").unwrap());
        shell.env("PATH", path);
        shell.env("LD_PRELOAD", watch()).env("WATCH_NOTES", &notes);
        if let Some((call, passed, strike)) = strike {
            shell.env("WATCH_CALL", call).env("WATCH_PASSED", passed.to_string());
            match strike {
                Strike::Signal(number) => shell.env("WATCH_SIGNAL", number.to_string()),
                Strike::Error(number) => shell.env("WATCH_ERROR", number.to_string()),
            };
        }
        let output = shell.output().unwrap();
        let calls = fs::read_to_string(notes).unwrap();
        Watched {
            status: output.status.code(),
            signal: output.status.signal(),
            out: output.stdout,
            err: String::from_utf8(output.stderr).unwrap(),
            calls: calls.lines().map(String::from).collect(),
        }
    }
}

impl Watched {
    /// The run was done, with this report.
    pub fn done(&self, report: &str) {
        assert_eq!((self.status, &*self.err), (Some(0), ""));
        assert_eq!(String::from_utf8_lossy(&self.out), report);
    }

    /// The run failed with this message.
    pub fn failed(&self, message: &str) {
        assert_eq!(self.status, Some(2), "{}", self.err);
        assert!(self.err.starts_with(&format!("tares: {message}")), "{}", self.err);
    }
}
