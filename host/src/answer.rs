//! What is said of a claim.

use std::fmt;

/// What is said of a claim.
///
/// A word has a column for each place, a number whose bit x says whether set x has the place; behind its end no set has
/// any place. Shorter words come first, words of one length by the first column that differs.
#[derive(Clone, Debug, PartialEq, Eq)]
pub enum Answer {
    /// It holds of all finite sets of places, however far they reach.
    Always,
    /// It holds of none.
    Never,
    /// It holds of some: the first word of which it holds, and the first of which it does not.
    Both { holds: Vec<u32>, fails: Vec<u32> },
    /// The bytes are no claim.
    NoClaim,
    /// At some part, more classes must be told apart than are allowed.
    Many,
    /// The two first words have these lengths, and are longer together than was allowed. Only
    /// [`Judge::judge_within`](crate::Judge::judge_within) says this.
    OutFull { holds: usize, fails: usize },
}

/// What is said of a row claim.
///
/// A row has exactly as many places as its word has columns; the empty row has none. Shorter rows come first, rows of one length by
/// the first column that differs.
#[derive(Clone, Debug, PartialEq, Eq)]
pub enum RowAnswer {
    /// It holds of every row, however long.
    Always,
    /// It holds of none.
    Never,
    /// It holds of some: the first row of which it holds, and the first of which it does not.
    Both { holds: Vec<u32>, fails: Vec<u32> },
    /// The bytes are no row claim.
    NoRowClaim,
    /// The claim about sets that is made of it takes more than 1,024 bytes.
    TooLong,
    /// The claim about sets that is made of it is about more than 12: the row claim is about 12.
    TooManySets,
    /// At some part of the claims about sets that are made of it, more classes must be told apart than are allowed.
    Many,
    /// The two first rows have these lengths, and are longer together than was allowed. Only
    /// [`Judge::judge_row_within`](crate::Judge::judge_row_within) says this.
    OutFull { holds: usize, fails: usize },
}

/// What is said of a ring claim.
///
/// A ring has exactly as many places as its word has columns; the empty ring has none. Turned, a ring is another word of which the
/// same claims hold: shorter words come first, words of one length by the first column that differs.
#[derive(Clone, Debug, PartialEq, Eq)]
pub enum RingAnswer {
    /// It holds of every ring, however long.
    Always,
    /// It holds of none.
    Never,
    /// It holds of some: the first ring of which it holds, and the first of which it does not.
    Both { holds: Vec<u32>, fails: Vec<u32> },
    /// The bytes are no ring claim.
    NoRingClaim,
    /// The claim about sets that is made of it takes more than 1,024 bytes.
    TooLong,
    /// The claim about sets that is made of it is about more than 12: the ring claim is about 12.
    TooManySets,
    /// At some part of the claims about sets that are made of it, more classes must be told apart than are allowed.
    Many,
    /// The two first rings have these lengths, and are longer together than was allowed. Only
    /// [`Judge::judge_ring_within`](crate::Judge::judge_ring_within) says this.
    OutFull { holds: usize, fails: usize },
}

/// In the words of [`Answer`].
impl fmt::Display for RowAnswer {
    fn fmt(&self, f: &mut fmt::Formatter<'_>) -> fmt::Result {
        match self {
            RowAnswer::Always => f.write_str("always"),
            RowAnswer::Never => f.write_str("never"),
            RowAnswer::Both { holds, fails } => write_both(f, holds, fails),
            RowAnswer::NoRowClaim => f.write_str("no row claim"),
            RowAnswer::TooLong => f.write_str("too long"),
            RowAnswer::TooManySets => f.write_str("too many sets"),
            RowAnswer::Many => f.write_str("many"),
            RowAnswer::OutFull { holds, fails } => write!(f, "out full {holds} {fails}"),
        }
    }
}

/// In the words of [`Answer`].
impl fmt::Display for RingAnswer {
    fn fmt(&self, f: &mut fmt::Formatter<'_>) -> fmt::Result {
        match self {
            RingAnswer::Always => f.write_str("always"),
            RingAnswer::Never => f.write_str("never"),
            RingAnswer::Both { holds, fails } => write_both(f, holds, fails),
            RingAnswer::NoRingClaim => f.write_str("no ring claim"),
            RingAnswer::TooLong => f.write_str("too long"),
            RingAnswer::TooManySets => f.write_str("too many sets"),
            RingAnswer::Many => f.write_str("many"),
            RingAnswer::OutFull { holds, fails } => write!(f, "out full {holds} {fails}"),
        }
    }
}

/// As the proved program prints it.
impl fmt::Display for Answer {
    fn fmt(&self, f: &mut fmt::Formatter<'_>) -> fmt::Result {
        match self {
            Answer::Always => f.write_str("always"),
            Answer::Never => f.write_str("never"),
            Answer::Both { holds, fails } => write_both(f, holds, fails),
            Answer::NoClaim => f.write_str("no claim"),
            Answer::Many => f.write_str("many"),
            Answer::OutFull { holds, fails } => write!(f, "out full {holds} {fails}"),
        }
    }
}

fn write_both(f: &mut fmt::Formatter<'_>, holds: &[u32], fails: &[u32]) -> fmt::Result {
    write!(f, "both {} {} | ", holds.len(), fails.len())?;
    write_word(f, holds)?;
    f.write_str(" | ")?;
    write_word(f, fails)
}

/// The columns, with a space between them.
fn write_word(f: &mut fmt::Formatter<'_>, word: &[u32]) -> fmt::Result {
    for (i, column) in word.iter().enumerate() {
        if i > 0 {
            f.write_str(" ")?;
        }
        write!(f, "{column}")?;
    }
    Ok(())
}
