//! Tare lists on air at the command line: files are read and written here, the
//! calls of the library `pansdaoh` do the rest, and what they answer is put in words.
#![deny(unsafe_code)]

mod align;
mod args;
mod bucket;
mod changes;
mod check;
mod columns;
mod commands;
mod differences;
mod files;
mod follow;
mod hearing;
mod help;
mod import;
mod lists;
mod misprint;
mod plans;
mod pointers;
mod progress;
mod reasons;
mod refusals;
mod room;
mod search;
mod segments;
mod settings;
mod shape;
mod show;
mod signals;
mod sizes;
mod table;
mod words;

use std::process::ExitCode;

/// How a command ended that was done.
pub enum Status {
    Done,
    /// The image is not the list's cycle, or not every line was taken.
    Wrong,
}

/// Why a command was not done.
pub enum Failure {
    /// The library refused the input.
    Refused(String),
    /// A wrong command line, or a file that cannot be read or written.
    WrongUse(String),
}

impl Failure {
    /// The same with a line more.
    pub fn and(self, line: &str) -> Failure {
        match self {
            Failure::Refused(text) => Failure::Refused(format!("{text}\n{line}")),
            Failure::WrongUse(text) => Failure::WrongUse(format!("{text}\n{line}")),
        }
    }
}

fn main() -> ExitCode {
    signals::size_limit_as_error();
    let done = args::parse(std::env::args_os().skip(1)).and_then(commands::run);
    let (message, status) = match done {
        Ok(Status::Done) => return ExitCode::SUCCESS,
        Ok(Status::Wrong) => return ExitCode::from(1),
        Err(Failure::Refused(message)) => (message, 1),
        Err(Failure::WrongUse(message)) => (message, 2),
    };
    files::tell(&format!("tares: {message}\n"));
    ExitCode::from(status)
}
