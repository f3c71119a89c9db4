//! With which helpers a step keeps a claim: the call on a rule file, made safe.

use crate::kept::{Large, Moment, NotJudged, Numbers};

/// The most helpers that a choice has.
pub const MOST_HELPERS: usize = 8;

/// What is said of a kept claim of a rule file and of its list of helpers.
///
/// A choice is kept if all that the claim and the chosen helpers say, taken together, is ([`judge_kept`](crate::judge_kept) says what that
/// is). It is the numbers of its helpers in the list, from 1 on and rising. Smaller choices come first, those of one size by the first
/// number that differs.
#[derive(Clone, Debug, PartialEq, Eq)]
pub enum Stronger {
    /// With these helpers the claim is kept, and with no choice that comes before. There are none where the claim alone is kept.
    With(Vec<usize>),
    /// No choice of at most [`MOST_HELPERS`] is kept.
    NoneAmong,
    /// No choice before this one is kept. Of this one a part makes a claim about sets that is too large. Parts stand between the `&` of
    /// the claim and then of each chosen helper, and are counted from 1 on.
    TooLarge { choice: Vec<usize>, part: u32, moment: Moment, large: Large },
}

unsafe extern "C" {
    fn ceivuron_strengthen(
        text: *const u8,
        text_len: usize,
        name: *const u8,
        name_len: usize,
        most: u32,
        words: u64,
        out: *mut u32,
        out_len: usize,
    ) -> Numbers;
}

/// The call itself: the numbers of the chosen helpers, from 0 on, are written to `out`.
fn call(rule: &str, name: &str, most: u32, words: u64, out: &mut [u32]) -> Numbers {
    // Sound: each slice crosses as its pointer and length, and the borrows hold until the call returns. By the library's contract,
    // which is proved, it touches nothing else but memory that it takes from the C library's heap and gives back.
    unsafe {
        ceivuron_strengthen(
            rule.as_ptr(),
            rule.len(),
            name.as_ptr(),
            name.len(),
            most,
            words,
            out.as_mut_ptr(),
            out.len(),
        )
    }
}

/// With which helpers of its file's list a step keeps the claim `name` of a rule file, of which `rule` is the text, in rows of every
/// length: the fewest, at most [`MOST_HELPERS`], and of as many the first choice. At most `most` classes may be told apart at each part
/// of the claims about sets that are made of a choice, in at most `words` words of work memory.
pub fn strengthen(rule: &str, name: &str, most: u32, words: u64) -> Result<Stronger, NotJudged> {
    let mut out = [0; MOST_HELPERS];
    let numbers = call(rule, name, most, words, &mut out);
    let choice = || out[..numbers.length].iter().map(|number| *number as usize + 1).collect();
    match numbers.tag {
        0 => Ok(Stronger::With(choice())),
        1 => Ok(Stronger::NoneAmong),
        2 => Ok(Stronger::TooLarge {
            choice: choice(),
            part: numbers.part,
            moment: numbers.moment(),
            large: numbers.large(),
        }),
        3 => Err(NotJudged::NotRead),
        4 => Err(NotJudged::NoSuchClaim),
        5 => unreachable!("a choice has at most {MOST_HELPERS} helpers, for which there is room"),
        6 => Err(NotJudged::NoMemory),
        7 => Err(NotJudged::TooFewWords { words }),
        tag => unreachable!("the library's answers are 0 to 7, not {tag}"),
    }
}
