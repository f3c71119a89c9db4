//! The form of a row claim: which sets it speaks of, how deep `some` is nested, the same claim of other sets.

use crate::row_part::{RowPart, and, before, last, multiple, next, not, single, some, within};

/// The sets of which a claim speaks, without those for which it says `some`, as bits.
pub fn free_sets(c: &RowPart) -> u16 {
    match c {
        RowPart::Single(x) | RowPart::Multiple(_, _, x) | RowPart::Last(x) => 1 << x,
        RowPart::Within(x, y) | RowPart::Next(x, y) | RowPart::Before(x, y) => 1 << x | 1 << y,
        RowPart::Not(c) => free_sets(c),
        RowPart::And(c, d) => free_sets(c) | free_sets(d),
        RowPart::Some(x, c) => free_sets(c) & !(1 << x),
    }
}

/// How many `some` are one within another.
pub fn depth(c: &RowPart) -> u32 {
    match c {
        RowPart::Not(c) => depth(c),
        RowPart::And(c, d) => depth(c).max(depth(d)),
        RowPart::Some(_, c) => 1 + depth(c),
        _ => 0,
    }
}

/// How many signs it has.
pub fn signs(c: &RowPart) -> u64 {
    match c {
        RowPart::Not(c) | RowPart::Some(_, c) => 1 + signs(c),
        RowPart::And(c, d) => 1 + signs(c) + signs(d),
        _ => 1,
    }
}

/// Whether it says `last` of a set.
pub fn says_last(c: &RowPart) -> bool {
    match c {
        RowPart::Last(_) => true,
        RowPart::Not(c) | RowPart::Some(_, c) => says_last(c),
        RowPart::And(c, d) => says_last(c) || says_last(d),
        _ => false,
    }
}

/// The same claim of other sets: of `sets[x]` in place of x, free or of a `some`.
///
/// # Panics
///
/// Where there is none for a set of the claim.
pub fn renamed(c: &RowPart, sets: &[u8]) -> RowPart {
    let set = |x: &u8| sets[usize::from(*x)];
    match c {
        RowPart::Within(x, y) => within(set(x), set(y)),
        RowPart::Single(x) => single(set(x)),
        RowPart::Next(x, y) => next(set(x), set(y)),
        RowPart::Before(x, y) => before(set(x), set(y)),
        RowPart::Multiple(modulus, rest, x) => multiple(*modulus, *rest, set(x)),
        RowPart::Last(x) => last(set(x)),
        RowPart::Not(c) => not(renamed(c, sets)),
        RowPart::And(c, d) => and(renamed(c, sets), renamed(d, sets)),
        RowPart::Some(x, c) => some(set(x), renamed(c, sets)),
    }
}

#[cfg(test)]
mod tests {
    use super::*;

    #[test]
    fn forms() {
        let claim = some(1, and(single(1), not(and(last(1), next(0, 2)))));
        assert_eq!((depth(&claim), signs(&claim), says_last(&claim), free_sets(&claim)), (1, 7, true, 0b101));
        assert!(!says_last(&some(0, not(before(0, 1)))));
        let other = some(4, and(single(4), not(and(last(4), next(9, 0)))));
        assert_eq!(renamed(&claim, &[9, 4, 0]), other);
        assert_eq!(renamed(&and(within(0, 1), multiple(3, 2, 1)), &[1, 0]), and(within(1, 0), multiple(3, 2, 0)));
    }
}
