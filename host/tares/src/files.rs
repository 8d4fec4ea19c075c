//! Files, read and written whole.
//!
//! A file is written beside its place, in the same folder, and renamed once it
//! is on the disk. An error or a signal before that leaves the place as it was
//! and nothing beside it. Of two files that belong together both are on the disk
//! before either is renamed.

use std::ffi::OsString;
use std::fs::{self, OpenOptions, Permissions};
use std::io::{self, ErrorKind, Read, Write};
use std::os::unix::fs::{MetadataExt, OpenOptionsExt, PermissionsExt};
use std::path::{Path, PathBuf};

use crate::signals::Held;
use crate::Failure;

/// Bytes written between two looks for a signal.
const PIECE: usize = 1 << 20;
/// The most links that one name is followed through, as on Linux.
const MAX_LINKS: usize = 40;

/// A file by name, or standard input or output.
pub enum File {
    Standard,
    Named(PathBuf),
}

impl File {
    /// The file that a word of the command line names.
    pub fn new(word: OsString) -> File {
        if word == "-" {
            File::Standard
        } else {
            File::Named(word.into())
        }
    }

    /// The file's bytes; of a longer file the first `most` and one more.
    pub fn read(&self, most: usize) -> Result<Vec<u8>, Failure> {
        let bytes = match self {
            File::Standard => read(io::stdin(), most),
            File::Named(path) => fs::File::open(path).and_then(|file| read(file, most)),
        };
        bytes.map_err(|error| self.failure("read", "standard input", error))
    }

    /// Makes these the file's bytes.
    pub fn write(&self, bytes: &[u8]) -> Result<(), Failure> {
        let written = self.place().and_then(|place| place.write(bytes, None));
        written.map_err(|error| self.unwritten(error))
    }

    /// Where its bytes go.
    fn place(&self) -> io::Result<Place> {
        match self {
            File::Standard => Ok(Place::Stream(Box::new(io::stdout()))),
            File::Named(path) => Place::of(path),
        }
    }

    fn unwritten(&self, error: io::Error) -> Failure {
        self.failure("write", "standard output", error)
    }

    fn failure(&self, what: &str, standard: &str, error: io::Error) -> Failure {
        let name = match self {
            File::Standard => standard.into(),
            File::Named(path) => path.to_string_lossy(),
        };
        Failure::WrongUse(format!("cannot {what} {name}: {error}"))
    }

    /// Whether both names lead to one file.
    pub fn is(&self, other: &File) -> bool {
        let file = |file: &File| match file {
            File::Standard => None,
            File::Named(path) => path.metadata().ok().map(|file| (file.dev(), file.ino())),
        };
        file(self).is_some_and(|own| file(other) == Some(own))
    }

    /// Whether it is a file by name, or none yet: standard output, a device or a pipe cannot be replaced.
    pub fn can_be_replaced(&self) -> bool {
        match self {
            File::Standard => false,
            File::Named(path) => path.metadata().map_or(true, |file| file.is_file()),
        }
    }

    /// Does this while whoever would do the same with a file of its folder waits, where the file system
    /// has locks. A pipe or a device has no lock: another command may be at its other end.
    pub fn alone<T>(&self, act: impl FnOnce() -> T) -> T {
        let _lock = self.lock();
        act()
    }

    fn lock(&self) -> Option<fs::File> {
        let File::Named(path) = self else {
            return None;
        };
        if !self.can_be_replaced() {
            return None;
        }
        let folder = fs::File::open(folder_of(&behind_links(path).ok()?)).ok()?;
        folder.lock().ok().map(|()| folder)
    }
}

/// What is said where the first of two files is written, and where both are.
pub struct Said {
    pub first: &'static str,
    pub both: &'static str,
}

/// Makes these the bytes of two files, of the first before the second. Where both can be replaced,
/// both are on the disk before the first gets its place.
pub fn write_both(
    (one, bytes): (&File, &[u8]),
    (other, other_bytes): (&File, &[u8]),
    said: Said,
) -> Result<(), Failure> {
    let place = |file: &File| file.place().map_err(|error| file.unwritten(error));
    match (place(one)?, place(other)?) {
        (Place::File(one_place), Place::File(other_place)) => {
            let held = Held::new();
            let beside = one_place.beside(bytes, &held).map_err(|error| one.unwritten(error))?;
            let other_beside = other_place.beside(other_bytes, &held);
            let other_beside = other_beside.map_err(|error| other.unwritten(error))?;
            put_both((one, beside), (other, other_beside), &said)?;
            held.tell_if_waiting(said.both);
            Ok(())
        }
        (one_place, other_place) => {
            one_place.write(bytes, Some(said.first)).map_err(|error| one.unwritten(error))?;
            let written = other_place.write(other_bytes, Some(said.both));
            written.map_err(|error| other.unwritten(error).and(said.first))
        }
    }
}

/// Two files get their places.
fn put_both(
    (one, mut beside): (&File, Beside),
    (other, mut other_beside): (&File, Beside),
    said: &Said,
) -> Result<(), Failure> {
    beside.put().map_err(|error| one.unwritten(error))?;
    beside.flush().map_err(|error| one.unwritten(error).and(said.first))?;
    other_beside.put().map_err(|error| other.unwritten(error).and(said.first))?;
    other_beside.flush().map_err(|error| other.unwritten(error).and(said.both))
}

/// Writes a message to standard error; if that fails there is nobody to tell.
pub fn tell(message: &str) {
    let _ = write(io::stderr(), message.as_bytes());
}

fn read(from: impl Read, most: usize) -> io::Result<Vec<u8>> {
    let mut bytes = Vec::new();
    from.take(most as u64 + 1).read_to_end(&mut bytes)?;
    Ok(bytes)
}

fn write(mut to: impl Write, bytes: &[u8]) -> io::Result<()> {
    to.write_all(bytes)?;
    to.flush()
}

/// Where bytes go.
enum Place {
    /// A device or a pipe cannot be replaced.
    Stream(Box<dyn Write>),
    File(Replaced),
}

/// A file that is replaced, or is not there yet.
struct Replaced {
    path: PathBuf,
    folder: fs::File,
    permissions: Option<Permissions>,
}

/// Bytes on the disk beside their place. They are removed unless they are put there.
struct Beside<'a> {
    place: &'a Replaced,
    path: PathBuf,
    put: bool,
}

impl Place {
    fn of(path: &Path) -> io::Result<Place> {
        let permissions = match OpenOptions::new().write(true).open(path) {
            Ok(file) if !file.metadata()?.is_file() => return Ok(Place::Stream(Box::new(file))),
            Ok(file) => Some(file.metadata()?.permissions()),
            Err(error) if error.kind() == ErrorKind::NotFound => None,
            Err(error) => return Err(error),
        };
        let path = behind_links(path)?;
        let folder = fs::File::open(folder_of(&path))?;
        Ok(Place::File(Replaced { path, folder, permissions }))
    }

    /// Writes a stream, or a file whole or not at all, of which something may be said if a signal ends
    /// the program then.
    fn write(self, bytes: &[u8], said: Option<&str>) -> io::Result<()> {
        match self {
            Place::Stream(stream) => write(stream, bytes),
            Place::File(place) => {
                let held = Held::new();
                let mut beside = place.beside(bytes, &held)?;
                beside.put()?;
                beside.flush()?;
                if let Some(said) = said {
                    held.tell_if_waiting(said);
                }
                Ok(())
            }
        }
    }
}

impl Replaced {
    /// Writes the bytes beside the place.
    fn beside(&self, bytes: &[u8], held: &Held) -> io::Result<Beside<'_>> {
        let (path, file) = create_beside(&self.path, self.permissions.as_ref())?;
        let beside = Beside { place: self, path, put: false };
        finish(file, bytes, self.permissions.clone(), held)?;
        Ok(beside)
    }
}

impl Beside<'_> {
    fn put(&mut self) -> io::Result<()> {
        fs::rename(&self.path, &self.place.path)?;
        self.put = true;
        Ok(())
    }

    /// The place reaches the disk.
    fn flush(&self) -> io::Result<()> {
        self.place.folder.sync_all()
    }
}

impl Drop for Beside<'_> {
    fn drop(&mut self) {
        if !self.put {
            // The first error is the one to tell.
            let _ = fs::remove_file(&self.path);
        }
    }
}

/// What a link leads to, which need not exist; another file is itself.
fn behind_links(path: &Path) -> io::Result<PathBuf> {
    let mut path = path.to_path_buf();
    for _ in 0..MAX_LINKS {
        match fs::read_link(&path) {
            Ok(target) => path = folder_of(&path).join(target),
            Err(error) if error.kind() == ErrorKind::NotFound => return Ok(path),
            // No link.
            Err(error) if error.kind() == ErrorKind::InvalidInput => return Ok(path),
            Err(error) => return Err(error),
        }
    }
    Err(io::Error::other("too many links"))
}

fn folder_of(path: &Path) -> &Path {
    match path.parent() {
        Some(folder) if folder != Path::new("") => folder,
        _ => Path::new("."),
    }
}

/// A new file in the same folder, with no wider permissions than the one that
/// it replaces.
fn create_beside(
    path: &Path,
    permissions: Option<&Permissions>,
) -> io::Result<(PathBuf, fs::File)> {
    let mode = permissions.map_or(0o666, |permissions| permissions.mode() & 0o777);
    let mut number = std::process::id();
    loop {
        let beside = path.with_file_name(format!(".tares.{number}"));
        match OpenOptions::new().write(true).create_new(true).mode(mode).open(&beside) {
            Err(error) if error.kind() == ErrorKind::AlreadyExists => number += 1,
            file => return Ok((beside, file?)),
        }
    }
}

/// Gives the new file its permissions and bytes, which reach the disk before
/// the file gets its name. Stops where a signal is waiting to end the program.
fn finish(
    mut file: fs::File,
    bytes: &[u8],
    permissions: Option<Permissions>,
    held: &Held,
) -> io::Result<()> {
    if let Some(permissions) = permissions {
        file.set_permissions(permissions)?;
    }
    for piece in bytes.chunks(PIECE) {
        unless_ending(held)?;
        file.write_all(piece)?;
    }
    file.sync_all()?;
    unless_ending(held)
}

impl Held {
    /// Says something before a signal that is waiting ends the program.
    fn tell_if_waiting(&self, said: &str) {
        if self.is_waiting() {
            tell(&format!("tares: {said}\n"));
        }
    }
}

fn unless_ending(held: &Held) -> io::Result<()> {
    match held.is_waiting() {
        true => Err(ErrorKind::Interrupted.into()),
        false => Ok(()),
    }
}
