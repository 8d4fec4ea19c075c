//! Runs of the tool in a folder of their own.

use std::fs;
use std::io::Write;
use std::path::{Path, PathBuf};
use std::process::{Command, Stdio};
use std::time::{Duration, Instant};

use reference::generate::list_of;

/// The settings of the sample yard with r 1.
pub const R1: &str = "--n 2 --p 1 --layout 1 --copies 1";

/// Whether a run can be done within a time; tried again while the machine has other work.
pub fn within(time: Duration, mut run: impl FnMut()) -> bool {
    (0..50).any(|_| {
        let start = Instant::now();
        run();
        start.elapsed() < time
    })
}

/// A folder for one test, gone when the test ends: rt ci takes no link in the repository, and a test may make one.
pub struct Folder {
    path: PathBuf,
}

impl Drop for Folder {
    fn drop(&mut self) {
        let _ = fs::remove_dir_all(&self.path);
    }
}

/// What a run left: status, standard output, standard error.
pub struct Run {
    pub status: i32,
    pub out: Vec<u8>,
    pub err: String,
}

impl Folder {
    /// An empty folder.
    pub fn new(name: &str) -> Folder {
        let path = Path::new(env!("CARGO_TARGET_TMPDIR")).join(name);
        let _ = fs::remove_dir_all(&path);
        fs::create_dir_all(&path).unwrap();
        Folder { path }
    }

    /// A folder with list S of the sample yard and its cycle with r 1.
    pub fn sample_yard(name: &str) -> Folder {
        let folder = Folder::new(name);
        folder.write("list", &list_of(&[3, 5, 5, 8, 9]));
        folder.tares(&format!("build list image {R1}")).done();
        folder
    }

    pub fn path(&self, name: &str) -> PathBuf {
        self.path.join(name)
    }

    pub fn write(&self, name: &str, bytes: &[u8]) {
        fs::write(self.path(name), bytes).unwrap();
    }

    pub fn read(&self, name: &str) -> Vec<u8> {
        fs::read(self.path(name)).unwrap()
    }

    /// The names in the folder, in order.
    pub fn names(&self) -> Vec<String> {
        let entries = fs::read_dir(&self.path).unwrap();
        let name = |entry: fs::DirEntry| entry.file_name().into_string().unwrap();
        let mut names: Vec<String> = entries.map(|entry| name(entry.unwrap())).collect();
        names.sort();
        names
    }

    /// Runs the tool on words with blanks between them.
    pub fn tares(&self, words: &str) -> Run {
        self.tares_given(words, b"")
    }

    /// The same, with bytes on standard input.
    pub fn tares_given(&self, words: &str, input: &[u8]) -> Run {
        let mut child = Command::new(env!("CARGO_BIN_EXE_tares"))
            .args(words.split_whitespace())
            .current_dir(&self.path)
            .stdin(Stdio::piped())
            .stdout(Stdio::piped())
            .stderr(Stdio::piped())
            .spawn()
            .unwrap();
        // The tool may end without reading its input to the end.
        let mut stdin = child.stdin.take().unwrap();
        let input = input.to_vec();
        let writer = std::thread::spawn(move || drop(stdin.write_all(&input)));
        let output = child.wait_with_output().unwrap();
        writer.join().unwrap();
        Run {
            status: output.status.code().unwrap(),
            out: output.stdout,
            err: String::from_utf8(output.stderr).unwrap(),
        }
    }
}

impl Run {
    /// Standard output of a run that ended well and had no message.
    pub fn done(self) -> String {
        assert_eq!((self.status, &*self.err), (0, ""));
        String::from_utf8(self.out).unwrap()
    }

    /// Standard output of a check that found the image wrong.
    pub fn wrong_image(self) -> String {
        assert_eq!((self.status, &*self.err), (1, ""));
        String::from_utf8(self.out).unwrap()
    }

    /// The message of a run that was refused.
    pub fn refused(self) -> String {
        assert_eq!((self.status, self.out), (1, vec![]), "{}", self.err);
        self.err
    }

    /// The message of a wrong use.
    pub fn wrong(self) -> String {
        assert_eq!((self.status, self.out), (2, vec![]), "{}", self.err);
        self.err
    }
}
