//! The exported call, made safe.

/// An answer of the call, as it gives it: words are in `out`, and only their lengths are said here.
#[derive(Clone, Copy, Debug, PartialEq, Eq)]
pub enum Verdict {
    /// The claim holds of all finite sets of places.
    Always,
    /// It holds of none.
    Never,
    /// It holds of some: the lengths of the first word of which it holds and of the first of which it does not.
    /// The words stand in `out`, one behind the other.
    Both(usize, usize),
    /// The bytes are no claim.
    NoClaim,
    /// More classes must be told apart than are allowed.
    Many,
    /// `out` has no room for the two words, which have these lengths. Nothing is written.
    OutFull(usize, usize),
    /// There are fewer work words than [`floor`](crate::floor).
    Few,
}

/// An answer of the call on a row claim, as it gives it: rows are in `out`, and only their lengths are said here.
#[derive(Clone, Copy, Debug, PartialEq, Eq)]
pub enum RowVerdict {
    /// The claim holds of every row, however long.
    Always,
    /// It holds of none.
    Never,
    /// It holds of some: the lengths of the first row of which it holds and of the first of which it does not.
    /// The rows stand in `out`, one behind the other.
    Both(usize, usize),
    /// The bytes are no row claim.
    NoRowClaim,
    /// More classes must be told apart than are allowed.
    Many,
    /// `out` has no room for the two rows, which have these lengths. Nothing is written.
    OutFull(usize, usize),
    /// There are fewer work words than [`row_floor`](crate::row_floor).
    Few,
    /// The claim about sets that is made of it takes more than 1,024 bytes.
    TooLong,
    /// The claim about sets that is made of it is about more than 12.
    TooManySets,
}

/// An answer of the call on a ring claim, as it gives it: rings are in `out`, and only their lengths are said here.
#[derive(Clone, Copy, Debug, PartialEq, Eq)]
pub enum RingVerdict {
    /// The claim holds of every ring, however long.
    Always,
    /// It holds of none.
    Never,
    /// It holds of some: the lengths of the first ring of which it holds and of the first of which it does not.
    /// The rings stand in `out`, one behind the other.
    Both(usize, usize),
    /// The bytes are no ring claim.
    NoRingClaim,
    /// More classes must be told apart than are allowed.
    Many,
    /// `out` has no room for the two rings, which have these lengths. Nothing is written.
    OutFull(usize, usize),
    /// There are fewer work words than [`ring_floor`](crate::ring_floor).
    Few,
    /// The claim about sets that is made of it takes more than 1,024 bytes.
    TooLong,
    /// The claim about sets that is made of it is about more than 12.
    TooManySets,
}

/// Three numbers, as the library has them: which answer, and two lengths or 0.
#[repr(C)]
struct Numbers {
    tag: u32,
    first: usize,
    second: usize,
}

unsafe extern "C" {
    fn ceivuron_judge(
        claim: *const u8,
        claim_len: usize,
        most: u32,
        out: *mut u32,
        out_len: usize,
        work: *mut u32,
        work_len: usize,
    ) -> Numbers;

    fn ceivuron_floor(claim: *const u8, claim_len: usize, most: u32) -> u64;

    fn ceivuron_judge_row(
        claim: *const u8,
        claim_len: usize,
        most: u32,
        out: *mut u32,
        out_len: usize,
        work: *mut u32,
        work_len: usize,
    ) -> Numbers;

    fn ceivuron_row_floor(claim: *const u8, claim_len: usize, most: u32) -> u64;

    fn ceivuron_judge_ring(
        claim: *const u8,
        claim_len: usize,
        most: u32,
        out: *mut u32,
        out_len: usize,
        work: *mut u32,
        work_len: usize,
    ) -> Numbers;

    fn ceivuron_ring_floor(claim: *const u8, claim_len: usize, most: u32) -> u64;
}

/// The work words that the call asks for, or `u64::MAX` where they are more.
pub(crate) fn floor_words(claim: &[u8], most: u32) -> u64 {
    // Sound: the slice crosses as its pointer and length, the borrow holds until the function returns, and by its
    // contract, which is proved, it reads the slice and touches nothing else.
    unsafe { ceivuron_floor(claim.as_ptr(), claim.len(), most) }
}

/// The work words that the call on a row claim asks for, or `u64::MAX` where they are more.
pub(crate) fn row_floor_words(claim: &[u8], most: u32) -> u64 {
    // Sound: as for `ceivuron_floor`.
    unsafe { ceivuron_row_floor(claim.as_ptr(), claim.len(), most) }
}

/// The work words that the call on a ring claim asks for, or `u64::MAX` where they are more.
pub(crate) fn ring_floor_words(claim: &[u8], most: u32) -> u64 {
    // Sound: as for `ceivuron_floor`.
    unsafe { ceivuron_ring_floor(claim.as_ptr(), claim.len(), most) }
}

/// The call itself, over lent memory: nothing is allocated, and nothing is asked of the arguments. `work` is free,
/// the call may leave anything in it; `out` is written only where the two words are.
///
/// Most users want [`Judge`](crate::Judge), which keeps the memory.
pub fn call(claim: &[u8], most: u32, out: &mut [u32], work: &mut [u32]) -> Verdict {
    // Sound: each slice crosses as its pointer and length, the borrows hold until the call returns, and the
    // library's contract, which is proved, touches nothing else.
    let numbers = unsafe {
        ceivuron_judge(claim.as_ptr(), claim.len(), most, out.as_mut_ptr(), out.len(), work.as_mut_ptr(), work.len())
    };
    match numbers.tag {
        0 => Verdict::Always,
        1 => Verdict::Never,
        2 => Verdict::Both(numbers.first, numbers.second),
        3 => Verdict::NoClaim,
        4 => Verdict::Many,
        5 => Verdict::OutFull(numbers.first, numbers.second),
        6 => Verdict::Few,
        tag => unreachable!("the library's answers are 0 to 6, not {tag}"),
    }
}

/// The call on a row claim, over lent memory as [`call`]: nothing is allocated, and nothing is asked of the arguments. `out` is
/// written only where the two rows are.
///
/// Most users want [`Judge`](crate::Judge), which keeps the memory.
pub fn call_row(claim: &[u8], most: u32, out: &mut [u32], work: &mut [u32]) -> RowVerdict {
    // Sound: as for `ceivuron_judge`.
    let numbers = unsafe {
        ceivuron_judge_row(
            claim.as_ptr(),
            claim.len(),
            most,
            out.as_mut_ptr(),
            out.len(),
            work.as_mut_ptr(),
            work.len(),
        )
    };
    match numbers.tag {
        0 => RowVerdict::Always,
        1 => RowVerdict::Never,
        2 => RowVerdict::Both(numbers.first, numbers.second),
        3 => RowVerdict::NoRowClaim,
        4 => RowVerdict::Many,
        5 => RowVerdict::OutFull(numbers.first, numbers.second),
        6 => RowVerdict::Few,
        7 => RowVerdict::TooLong,
        8 => RowVerdict::TooManySets,
        tag => unreachable!("the library's answers are 0 to 8, not {tag}"),
    }
}

/// The call on a ring claim, over lent memory as [`call`]: nothing is allocated, and nothing is asked of the arguments. `out` is
/// written only where the two rings are.
///
/// Most users want [`Judge`](crate::Judge), which keeps the memory.
pub fn call_ring(claim: &[u8], most: u32, out: &mut [u32], work: &mut [u32]) -> RingVerdict {
    // Sound: as for `ceivuron_judge`.
    let numbers = unsafe {
        ceivuron_judge_ring(
            claim.as_ptr(),
            claim.len(),
            most,
            out.as_mut_ptr(),
            out.len(),
            work.as_mut_ptr(),
            work.len(),
        )
    };
    match numbers.tag {
        0 => RingVerdict::Always,
        1 => RingVerdict::Never,
        2 => RingVerdict::Both(numbers.first, numbers.second),
        3 => RingVerdict::NoRingClaim,
        4 => RingVerdict::Many,
        5 => RingVerdict::OutFull(numbers.first, numbers.second),
        6 => RingVerdict::Few,
        7 => RingVerdict::TooLong,
        8 => RingVerdict::TooManySets,
        tag => unreachable!("the library's answers are 0 to 8, not {tag}"),
    }
}
