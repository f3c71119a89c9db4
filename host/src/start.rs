//! A start without Rust's runtime, for a tool that has ended within a millisecond.
//!
//! Before `main`, the runtime has the C library find the stack's bounds, which reads and parses /proc/self/maps, and sets up a second
//! stack and two handlers, all for the message of a stack overflow: a sixth of such a run. A program with `#![no_main]` and a
//! C `main` does without; of the rest it needs what is here.

use std::ffi::{CStr, c_char, c_int};

const SIGPIPE: c_int = 13;
const SIG_IGN: usize = 1;

unsafe extern "C" {
    fn signal(signal: c_int, handler: usize) -> usize;
}

/// Where nobody reads any more, writing fails and the program goes on, as Rust's runtime has it.
pub fn ignore_broken_pipes() {
    // Sound: the signal is one that may be ignored, and no function of ours is given.
    unsafe {
        signal(SIGPIPE, SIG_IGN);
    }
}

/// The words of the command line behind the program's name. What is not UTF-8 in them is replaced.
///
/// # Safety
///
/// `words` are the `count` C strings with which the system called `main`.
pub unsafe fn arguments(count: c_int, words: *const *const c_char) -> Vec<String> {
    let count = usize::try_from(count).unwrap_or(0);
    // Sound: the system lends so many strings, for as long as the program runs.
    let word = |i| unsafe { CStr::from_ptr(*words.add(i)) };
    (1..count).map(|i| word(i).to_string_lossy().into_owned()).collect()
}
