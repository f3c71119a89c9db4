//! Judging with memory that is kept.

use std::error::Error;
use std::fmt;

use crate::answer::{Answer, RingAnswer, RowAnswer};
use crate::call::{RingVerdict, RowVerdict, Verdict, call, call_ring, call_row};
use crate::claim::Claim;
use crate::memory::{Buffer, floor, ring_floor, row_floor};
use crate::ring_claim::RingClaim;
use crate::row_claim::RowClaim;

/// The limit on work words of a new [`Judge`]: 2^30, which are 4 GiB. A large floor takes memory only as far as the
/// call uses it.
pub const WORK_LIMIT: u64 = 1 << 30;

/// Why a claim is not judged. In either case the claim may be judged with a smaller `most`.
#[derive(Clone, Copy, Debug, PartialEq, Eq)]
pub enum Refused {
    /// The call asks for more work words than the limit. Nothing was allocated.
    TooLarge { words: u128, limit: u64 },
    /// The system has no memory for so many words, although the limit allows them.
    NoMemory { words: u64 },
}

impl fmt::Display for Refused {
    fn fmt(&self, f: &mut fmt::Formatter<'_>) -> fmt::Result {
        match self {
            Refused::TooLarge { words, limit } => {
                write!(f, "the claim takes {words} words of work memory, and the limit is {limit}")
            }
            Refused::NoMemory { words } => write!(f, "there is no memory for {words} words of work memory"),
        }
    }
}

impl Error for Refused {}

/// Judges claims, one after the other, in memory that it keeps and replaces by more when a claim asks for more.
///
/// The call is lent exactly the work words that it asks for ([`floor`]), and 2n words for its answer: a first word is
/// shorter than there are classes, so that is room for any answer.
pub struct Judge {
    work: Buffer,
    out: Buffer,
    limit: u64,
}

impl Default for Judge {
    fn default() -> Judge {
        Judge::new()
    }
}

impl Judge {
    /// With the limit [`WORK_LIMIT`], and no memory yet.
    pub fn new() -> Judge {
        Judge::with_limit(WORK_LIMIT)
    }

    /// A claim that asks for more than `limit` work words is refused, before anything is allocated.
    pub fn with_limit(limit: u64) -> Judge {
        Judge { work: Buffer::default(), out: Buffer::default(), limit }
    }

    /// Whether the claim holds of all finite sets, of none, or of which first, where at most `most` classes may be told
    /// apart at each part.
    pub fn judge(&mut self, claim: &Claim, most: u32) -> Result<Answer, Refused> {
        self.judge_within(claim, most, usize::MAX)
    }

    /// The same, with at most `out_words` columns for the two first words together.
    pub fn judge_within(&mut self, claim: &Claim, most: u32, out_words: usize) -> Result<Answer, Refused> {
        let (out, work) = self.lend(floor(claim.bytes(), most), most, out_words)?;
        Ok(match call(claim.bytes(), most, out, work) {
            Verdict::Always => Answer::Always,
            Verdict::Never => Answer::Never,
            Verdict::Both(a, b) => Answer::Both { holds: out[..a].to_vec(), fails: out[a..a + b].to_vec() },
            Verdict::NoClaim => Answer::NoClaim,
            Verdict::Many => Answer::Many,
            Verdict::OutFull(holds, fails) => Answer::OutFull { holds, fails },
            Verdict::Few => unreachable!("the call was lent what it asks for"),
        })
    }

    /// Whether the row claim holds of every row, of none, or of which first, where at most `most` classes may be told apart at each
    /// part of the claims about sets that are made of it.
    pub fn judge_row(&mut self, claim: &RowClaim, most: u32) -> Result<RowAnswer, Refused> {
        self.judge_row_within(claim, most, usize::MAX)
    }

    /// The same, with at most `out_words` columns for the two first rows together.
    pub fn judge_row_within(&mut self, claim: &RowClaim, most: u32, out_words: usize) -> Result<RowAnswer, Refused> {
        let (out, work) = self.lend(row_floor(claim.bytes(), most), most, out_words)?;
        Ok(match call_row(claim.bytes(), most, out, work) {
            RowVerdict::Always => RowAnswer::Always,
            RowVerdict::Never => RowAnswer::Never,
            RowVerdict::Both(a, b) => RowAnswer::Both { holds: out[..a].to_vec(), fails: out[a..a + b].to_vec() },
            RowVerdict::NoRowClaim => RowAnswer::NoRowClaim,
            RowVerdict::Many => RowAnswer::Many,
            RowVerdict::OutFull(holds, fails) => RowAnswer::OutFull { holds, fails },
            RowVerdict::Few => unreachable!("the call was lent what it asks for"),
            RowVerdict::TooLong => RowAnswer::TooLong,
            RowVerdict::TooManySets => RowAnswer::TooManySets,
        })
    }

    /// Whether the ring claim holds of every ring, of none, or of which first, where at most `most` classes may be told apart at each
    /// part of the claims about sets that are made of it.
    pub fn judge_ring(&mut self, claim: &RingClaim, most: u32) -> Result<RingAnswer, Refused> {
        self.judge_ring_within(claim, most, usize::MAX)
    }

    /// The same, with at most `out_words` columns for the two first rings together.
    pub fn judge_ring_within(&mut self, claim: &RingClaim, most: u32, out_words: usize) -> Result<RingAnswer, Refused> {
        let (out, work) = self.lend(ring_floor(claim.bytes(), most), most, out_words)?;
        Ok(match call_ring(claim.bytes(), most, out, work) {
            RingVerdict::Always => RingAnswer::Always,
            RingVerdict::Never => RingAnswer::Never,
            RingVerdict::Both(a, b) => RingAnswer::Both { holds: out[..a].to_vec(), fails: out[a..a + b].to_vec() },
            RingVerdict::NoRingClaim => RingAnswer::NoRingClaim,
            RingVerdict::Many => RingAnswer::Many,
            RingVerdict::OutFull(holds, fails) => RingAnswer::OutFull { holds, fails },
            RingVerdict::Few => unreachable!("the call was lent what it asks for"),
            RingVerdict::TooLong => RingAnswer::TooLong,
            RingVerdict::TooManySets => RingAnswer::TooManySets,
        })
    }

    /// Out and work words: at most `out_words` and twice `most` of the one, `words` of the other.
    fn lend(&mut self, words: u128, most: u32, out_words: usize) -> Result<(&mut [u32], &mut [u32]), Refused> {
        if words > u128::from(self.limit) {
            let limit = self.limit;
            return Err(Refused::TooLarge { words, limit });
        }
        let words = words as u64;
        let refused = Refused::NoMemory { words };
        let work = usize::try_from(words).ok().and_then(|words| self.work.lend(words));
        let work = work.ok_or(refused)?;
        // More than 2n words are never used, so no more are lent.
        let room = out_words.min(2 * most as usize);
        let out = self.out.lend(room).ok_or(refused)?;
        Ok((out, work))
    }
}

/// Judges one claim, in memory of its own. For many claims a [`Judge`] is faster.
pub fn judge(claim: &Claim, most: u32) -> Result<Answer, Refused> {
    Judge::new().judge(claim, most)
}
