//! Signals that would end the program in the middle of writing a file.
//!
//! The C library's calls are declared as Linux has them.
#![allow(unsafe_code)]
#![deny(clippy::undocumented_unsafe_blocks)]

use std::ffi::c_int;

/// The signals by which a person or the system ends a program: hangup,
/// interrupt, quit and terminate.
const ENDING: [c_int; 4] = [1, 2, 3, 15];
/// A file grew past the process's limit.
const SIGXFSZ: c_int = 25;

const SIG_IGN: usize = 1;
const SIG_BLOCK: c_int = 0;
const SIG_SETMASK: c_int = 2;

/// `sigset_t`.
#[repr(C)]
#[derive(Clone, Copy)]
struct Set([u64; 16]);

/// `struct sigaction`.
#[repr(C)]
struct Action {
    handler: usize,
    mask: Set,
    flags: c_int,
    restorer: usize,
}

extern "C" {
    fn sigaddset(set: *mut Set, signal: c_int) -> c_int;
    fn sigismember(set: *const Set, signal: c_int) -> c_int;
    fn sigprocmask(how: c_int, set: *const Set, former: *mut Set) -> c_int;
    fn sigpending(set: *mut Set) -> c_int;
    fn sigaction(signal: c_int, action: *const Action, former: *mut Action) -> c_int;
    fn signal(signal: c_int, handler: usize) -> usize;
}

/// Makes a write past the limit on a file's size an error, like a full disk,
/// where the system would end the program.
pub fn size_limit_as_error() {
    // SAFETY: ignoring a signal runs no code of ours.
    unsafe { signal(SIGXFSZ, SIG_IGN) };
}

/// While it lives, signals that would end the program wait. Dropped, it lets
/// them come.
pub struct Held {
    former: Set,
}

impl Held {
    pub fn new() -> Held {
        let mut ending = Set::EMPTY;
        for number in ENDING {
            // SAFETY: the set is ours, and each number is a signal's.
            unsafe { sigaddset(&mut ending, number) };
        }
        let mut former = Set::EMPTY;
        // SAFETY: both sets are ours. The program has one thread.
        unsafe { sigprocmask(SIG_BLOCK, &ending, &mut former) };
        Held { former }
    }

    /// Whether one is waiting that will end the program.
    pub fn is_waiting(&self) -> bool {
        let mut pending = Set::EMPTY;
        // SAFETY: the set is ours.
        unsafe { sigpending(&mut pending) };
        ENDING
            .iter()
            .any(|&number| pending.has(number) && !self.former.has(number) && !ignored(number))
    }
}

impl Drop for Held {
    fn drop(&mut self) {
        // SAFETY: the set is ours, and no former one is asked for.
        unsafe { sigprocmask(SIG_SETMASK, &self.former, std::ptr::null_mut()) };
    }
}

impl Set {
    const EMPTY: Set = Set([0; 16]);

    fn has(&self, number: c_int) -> bool {
        // SAFETY: the set is ours, and only read.
        unsafe { sigismember(self, number) == 1 }
    }
}

/// Whether whoever started the program had it ignore the signal (`nohup`).
fn ignored(number: c_int) -> bool {
    let mut action = Action { handler: 0, mask: Set::EMPTY, flags: 0, restorer: 0 };
    // SAFETY: no action is set, and the former one goes to a struct of ours.
    unsafe { sigaction(number, std::ptr::null(), &mut action) };
    action.handler == SIG_IGN
}
