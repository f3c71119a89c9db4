//! What the calls on kept claims say, which are asked with more memory where little does not suffice.

#![allow(dead_code)] // each test takes a part of it

use ceivuron::{Kept, Large, Stronger, judge_kept, strengthen};

use crate::keeping::Break;

/// As many classes, and as many words of work memory at first, and where these do not suffice.
pub const MOST: u32 = 4000;
const WORDS: u64 = 1 << 22;
pub const MORE_WORDS: u64 = 1 << 24;

/// What the call says of a kept claim of a rule file: that it is kept, or where it is not; or what is too large.
pub fn asked(text: &str, name: &str) -> Result<Option<Break>, Large> {
    match asked_in(text, name, WORDS) {
        Err(Large::Classes(_)) => asked_in(text, name, MORE_WORDS),
        said => said,
    }
}

/// The same, with so many words.
fn asked_in(text: &str, name: &str, words: u64) -> Result<Option<Break>, Large> {
    let modules = |row: Vec<u32>| row.into_iter().map(|module| module as usize).collect();
    match judge_kept(text, name, MOST, words) {
        Ok(Kept::Kept) => Ok(None),
        Ok(Kept::NotKept { moment, row, after }) => {
            Ok(Some(Break { moment, row: modules(row), after: modules(after) }))
        }
        Ok(Kept::TooLarge { large, .. }) => Err(large),
        Err(error) => panic!("{error}: {name} in\n{text}"),
    }
}

/// With which helpers of the file's list the call says that a claim is kept.
pub fn strengthened(text: &str, name: &str) -> Stronger {
    match strengthened_in(text, name, WORDS) {
        Stronger::TooLarge { large: Large::Classes(_), .. } => strengthened_in(text, name, MORE_WORDS),
        said => said,
    }
}

/// The same, with so many words.
fn strengthened_in(text: &str, name: &str, words: u64) -> Stronger {
    strengthen(text, name, MOST, words).unwrap_or_else(|error| panic!("{error}: {name} in\n{text}"))
}
