//! What a step keeps: the call on a rule file, made safe.

use std::error::Error;
use std::fmt;

/// The fewest work words that [`judge_kept`] and [`strengthen`](crate::strengthen()) take: 2^20, which are 4 MiB.
pub const LEAST_WORDS: u64 = 1 << 20;

/// What is said of a kept claim of a rule file.
///
/// A row, or a ring, has a column for each module, a number whose bit j says whether the module has bit j of the rule. Shorter rows come
/// first, rows of one length by the first column that differs. Whether a row is allowed plays no part.
#[derive(Clone, Debug, PartialEq, Eq)]
pub enum Kept {
    /// Every row of which all starts hold has the claim, and so has every row after a row that has it, however long.
    Kept,
    /// It is not kept: the first row at which it fails, at which of the two it does, and the row after that row.
    NotKept { moment: Moment, row: Vec<u32>, after: Vec<u32> },
    /// A part of the claim makes a claim about sets that is too large. Parts stand between the `&` of the claim and are counted from 1 on.
    TooLarge { part: u32, moment: Moment, large: Large },
}

/// Where a claim fails, or for which of the two it is asked.
#[derive(Clone, Copy, Debug, PartialEq, Eq)]
pub enum Moment {
    /// All starts hold of a row, and the claim does not.
    Start,
    /// The claim holds of a row, and not of the row after it.
    Step,
}

/// In what a claim about sets is too large.
#[derive(Clone, Copy, Debug, PartialEq, Eq)]
pub enum Large {
    /// At some part of it more than so many classes must be told apart, which are as many as are allowed or have room.
    Classes(u64),
    /// It takes so many bytes, and 1,024 are allowed.
    Bytes(u64),
    /// It is about so many sets, and 12 are allowed.
    Sets(u64),
}

/// Why a kept claim is not judged.
#[derive(Clone, Copy, Debug, PartialEq, Eq)]
pub enum NotJudged {
    /// The text is no rule file, or one that is refused. The program `conveyor` says what is wrong in it, and where.
    NotRead,
    /// The rule file has no kept claim of that name.
    NoSuchClaim,
    /// The system has not enough memory.
    NoMemory,
    /// Fewer work words are allowed than [`LEAST_WORDS`].
    TooFewWords { words: u64 },
}

impl fmt::Display for Moment {
    fn fmt(&self, f: &mut fmt::Formatter<'_>) -> fmt::Result {
        f.write_str(match self {
            Moment::Start => "at the start",
            Moment::Step => "in a step",
        })
    }
}

impl fmt::Display for Large {
    fn fmt(&self, f: &mut fmt::Formatter<'_>) -> fmt::Result {
        match self {
            Large::Classes(most) => write!(f, "more than {most} classes are told apart"),
            Large::Bytes(bytes) => write!(f, "{bytes} bytes are needed, and 1024 are allowed"),
            Large::Sets(sets) => write!(f, "{sets} sets are needed, and 12 are allowed"),
        }
    }
}

impl fmt::Display for NotJudged {
    fn fmt(&self, f: &mut fmt::Formatter<'_>) -> fmt::Result {
        match self {
            NotJudged::NotRead => f.write_str("the text is no rule file"),
            NotJudged::NoSuchClaim => f.write_str("the rule file has no kept claim of that name"),
            NotJudged::NoMemory => f.write_str("there is not enough memory"),
            NotJudged::TooFewWords { words } => {
                write!(f, "{words} words of work memory are allowed, and at least {LEAST_WORDS} are needed")
            }
        }
    }
}

impl Error for NotJudged {}

/// Six numbers, as the library has them: which answer, and what it says.
#[repr(C)]
pub(crate) struct Numbers {
    pub(crate) tag: u32,
    pub(crate) moment: u32,
    pub(crate) part: u32,
    pub(crate) reason: u32,
    pub(crate) number: u64,
    pub(crate) length: usize,
}

impl Numbers {
    /// Where a claim fails, or for which of the two it is too large.
    pub(crate) fn moment(&self) -> Moment {
        match self.moment {
            0 => Moment::Start,
            1 => Moment::Step,
            moment => unreachable!("the library's moments are 0 and 1, not {moment}"),
        }
    }

    /// In what a claim is too large.
    pub(crate) fn large(&self) -> Large {
        match self.reason {
            0 => Large::Classes(self.number),
            1 => Large::Bytes(self.number),
            2 => Large::Sets(self.number),
            reason => unreachable!("the library's reasons are 0 to 2, not {reason}"),
        }
    }
}

unsafe extern "C" {
    fn ceivuron_judge_kept(
        text: *const u8,
        text_len: usize,
        name: *const u8,
        name_len: usize,
        most: u32,
        words: u64,
        out: *mut u32,
        out_len: usize,
    ) -> Numbers;
}

/// The call itself: the columns of the two rows are written to `out`, one row behind the other, if there is room for both.
fn call(rule: &str, name: &str, most: u32, words: u64, out: &mut [u32]) -> Numbers {
    // Sound: each slice crosses as its pointer and length, and the borrows hold until the call returns. By the library's contract,
    // which is proved, it touches nothing else but memory that it takes from the C library's heap and gives back.
    unsafe {
        ceivuron_judge_kept(
            rule.as_ptr(),
            rule.len(),
            name.as_ptr(),
            name.len(),
            most,
            words,
            out.as_mut_ptr(),
            out.len(),
        )
    }
}

/// What the numbers say, where they are an answer and `out` had room for it.
fn answer(numbers: &Numbers, out: &[u32]) -> Kept {
    match numbers.tag {
        0 => Kept::Kept,
        1 => {
            let (row, after) = out[..2 * numbers.length].split_at(numbers.length);
            Kept::NotKept { moment: numbers.moment(), row: row.to_vec(), after: after.to_vec() }
        }
        2 => Kept::TooLarge { part: numbers.part, moment: numbers.moment(), large: numbers.large() },
        tag => unreachable!("the library's answers are 0 to 7, not {tag}"),
    }
}

/// Room for two rows of that many modules, or none where there is no memory.
fn room(length: usize) -> Option<Vec<u32>> {
    let words = length.checked_mul(2)?;
    let mut out = Vec::new();
    out.try_reserve_exact(words).ok()?;
    out.resize(words, 0);
    Some(out)
}

/// As how many modules each of the two rows may have before the call is made again with more room.
const ROOM: usize = 32;

/// Whether a step keeps the claim `name` of a rule file, of which `rule` is the text, in rows of every length; at most `most` classes
/// may be told apart at each part of the claims about sets that are made of it, in at most `words` words of work memory.
///
/// Where a first row is longer than 32 modules the call is made twice, the second time with room for it.
pub fn judge_kept(rule: &str, name: &str, most: u32, words: u64) -> Result<Kept, NotJudged> {
    let mut out = room(ROOM).ok_or(NotJudged::NoMemory)?;
    loop {
        let numbers = call(rule, name, most, words, &mut out);
        match numbers.tag {
            3 => return Err(NotJudged::NotRead),
            4 => return Err(NotJudged::NoSuchClaim),
            5 => out = room(numbers.length).ok_or(NotJudged::NoMemory)?,
            6 => return Err(NotJudged::NoMemory),
            7 => return Err(NotJudged::TooFewWords { words }),
            _ => return Ok(answer(&numbers, &out)),
        }
    }
}
