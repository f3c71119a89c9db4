//! Which sets must be tried for a `some`: there are infinitely many finite sets, and finitely many suffice.
//!
//! Let all sets of which `c` speaks, other than `x`, have their places below `L`, and let `N` be the least common multiple of the
//! numbers by which `c` counts `x` or a set of a `some` inside, 1 if it does not count them. Of the places from `L` on of a set
//! for `x`, its *tail*, only so much matters as `c` can see.
//!
//! - If `c` says that `x` is within `y`, only sets within `y` matter, whatever else `c` says ([`Reach::Within`]).
//! - If no `some` is in `c`, it sees of a set whether it has no place, one or more; if one, which (`single`, `next`, `before`); of more
//!   only how many there are modulo `N`, and for each column of the other sets whether no place there is one of `x`, or all are. So
//!   the single places up to `L + 1` suffice, and of sets of more places one for each way to say how many are at each column, where
//!   of the places in no other set `N + 1` are enough ([`Reach::Plain`]).
//! - If there are `some` in `c`, but none within another, then the places below `L` are tried in every combination. What matters of
//!   a tail is how many places it has, and from `N + 2` on only how many modulo `N`; if one, whether it is `L`, `L + 1`, `L + 2` or
//!   further on; if more, whether `L` is one of them. Whatever tail an inner set has beside the one tail, there is a tail beside the
//!   other of which the signs without parts see the same: both have none, one or more places, the same number modulo `N`, are `L`,
//!   are within the other, and, being single, are the same, just before or further before the other. So `4N + 5` tails suffice, which
//!   reach to `L + 2N + 1` ([`Reach::Once`]).
//! - If `c` makes `x` a single place, and every `some` in `c` does so of its set, only places matter; counting them says nothing of
//!   where they are. With d places still to be chosen, one within another, two distances are told apart only if one of them is
//!   below 2^(d + 1): with none to be chosen that is *just behind* or not, and each further place halves a distance. So the
//!   places up to `L - 1 + 2^(d + 1)` suffice ([`Reach::Places`]).
//! - Otherwise the tails of `Once` are tried: a set among them that makes `c` hold decides, and if there is none, nothing is
//!   said ([`Reach::Open`]).

use crate::part::Part;

/// How a set for `some x c` is looked for.
#[derive(Clone, Debug, PartialEq, Eq)]
pub enum Reach {
    /// `c` does not speak of `x`: any set will do.
    Any,
    /// Only sets within these sets.
    Within(Vec<u8>),
    /// Single places up to this distance behind the last one in use.
    Places(u32),
    /// Single places, and of larger sets one for each way to say how many places are where, where `c` counts by this number.
    Plain(u32),
    /// Every set of places in use, with each of the tails for this number.
    Once(u32),
    /// The same, and if none of them is found nothing is said.
    Open(u32),
}

/// The tails that suffice where no `some` is within a `some` inside, and it is counted by `period`: from place `L` on as bit 0.
pub fn tails(period: u32) -> impl Iterator<Item = u128> {
    let singles = [0b1, 0b10, 0b100, 0b1000];
    let larger = (2..=2 * period + 1).map(|count| (1 << count) - 1).flat_map(|tail| [tail, tail << 1]);
    [0].into_iter().chain(singles).chain(larger)
}

/// How far behind `L` these tails reach.
pub fn tails_end(period: u32) -> u32 {
    2 * period + 2
}

/// How a set for `some x c` is looked for.
pub fn reach(x: u8, c: &Part) -> Reach {
    if free_sets(c) >> x & 1 == 0 {
        return Reach::Any;
    }
    let (depth, period) = (depth(c), period(c, 1 << x));
    let mut around = Vec::new();
    within_sets(c, x, &mut around);
    // a claim that counts is decided in fewer steps by numbers of places, where that can be
    if !around.is_empty() && (depth > 0 || period == 1) {
        return Reach::Within(around);
    }
    if makes_single(c, x) && places_only(c) && depth < 5 {
        return Reach::Places(1 << (depth + 1));
    }
    match depth {
        0 => Reach::Plain(period),
        1 => Reach::Once(period),
        _ => Reach::Open(period.min(WIDEST)),
    }
}

/// Where nothing is said unless a set is found, tails for larger numbers would take long and seldom help.
const WIDEST: u32 = 3;

/// All sets that there may be, as bits.
pub const ALL_SETS: u16 = 0xfff;

/// The least common multiple of the numbers by which `c` counts one of these sets, given as bits, or one of a `some` inside.
pub fn period(c: &Part, sets: u16) -> u32 {
    match c {
        Part::Multiple(modulus, _, x) if sets >> x & 1 == 1 => u32::from(*modulus),
        Part::Not(c) => period(c, sets),
        Part::And(c, d) => least_common_multiple(period(c, sets), period(d, sets)),
        Part::Some(x, c) => period(c, sets | 1 << x),
        _ => 1,
    }
}

fn least_common_multiple(a: u32, b: u32) -> u32 {
    let (mut divisor, mut rest) = (a, b);
    while rest > 0 {
        (divisor, rest) = (rest, divisor % rest);
    }
    a / divisor * b
}

/// The sets of which a claim speaks, without those for which it says `some`, as bits.
pub fn free_sets(c: &Part) -> u16 {
    match c {
        Part::Single(x) | Part::Multiple(_, _, x) => 1 << x,
        Part::Within(x, y) | Part::Next(x, y) | Part::Before(x, y) => 1 << x | 1 << y,
        Part::Not(c) => free_sets(c),
        Part::And(c, d) => free_sets(c) | free_sets(d),
        Part::Some(x, c) => free_sets(c) & !(1 << x),
    }
}

/// How many `some` are one within another, where those of which the set is not spoken are left out.
pub fn depth(c: &Part) -> u32 {
    match c {
        Part::Not(c) => depth(c),
        Part::And(c, d) => depth(c).max(depth(d)),
        Part::Some(x, c) => depth(c) + u32::from(free_sets(c) >> x & 1 == 1),
        _ => 0,
    }
}

/// Whether `c` holds only where `x` has exactly one place, as far as its form shows that.
fn makes_single(c: &Part, x: u8) -> bool {
    match c {
        Part::Single(y) => *y == x,
        Part::Next(y, z) | Part::Before(y, z) => *y == x || *z == x,
        Part::And(c, d) => makes_single(c, x) || makes_single(d, x),
        Part::Some(y, c) => *y != x && makes_single(c, x),
        Part::Not(c) => matches!(&**c, Part::Not(c) if makes_single(c, x)),
        Part::Within(..) | Part::Multiple(..) => false,
    }
}

/// Whether every `some` in `c` is for a single place, as far as its form shows that.
fn places_only(c: &Part) -> bool {
    match c {
        Part::Not(c) => places_only(c),
        Part::And(c, d) => places_only(c) && places_only(d),
        Part::Some(x, c) => {
            let vacuous = free_sets(c) >> x & 1 == 0;
            (vacuous || makes_single(c, *x)) && places_only(c)
        }
        _ => true,
    }
}

/// The sets, other than `x` and not named again by a `some` in between, within which `c` says that `x` is.
fn within_sets(c: &Part, x: u8, sets: &mut Vec<u8>) {
    match c {
        Part::Within(y, z) if *y == x && *z != x => sets.push(*z),
        Part::And(c, d) => {
            within_sets(c, x, sets);
            within_sets(d, x, sets);
        }
        _ => {}
    }
}

#[cfg(test)]
mod tests {
    use super::*;
    use crate::part::{and, before, multiple, next, not, single, some, within};

    #[test]
    fn each_form_has_its_reach() {
        assert_eq!(reach(1, &single(0)), Reach::Any);
        assert_eq!(reach(1, &and(within(1, 0), single(1))), Reach::Within(vec![0]));
        assert_eq!(reach(1, &next(0, 1)), Reach::Places(2));
        assert_eq!(reach(2, &and(before(0, 2), some(1, next(2, 1)))), Reach::Places(4));
        assert_eq!(reach(1, &not(within(1, 0))), Reach::Plain(1));
        assert_eq!(reach(1, &some(2, not(within(2, 1)))), Reach::Once(1));
        assert_eq!(reach(1, &and(single(1), some(2, not(within(2, 1))))), Reach::Once(1));
        assert_eq!(reach(0, &some(1, some(2, not(and(within(2, 1), within(2, 0)))))), Reach::Open(1));
    }

    /// Counting widens the reach by the least common multiple, of x and of the sets inside alone.
    #[test]
    fn counts_have_their_reach() {
        let both = and(multiple(4, 1, 1), multiple(6, 1, 1));
        assert_eq!(reach(1, &both), Reach::Plain(12));
        assert_eq!(reach(1, &and(multiple(4, 1, 0), multiple(3, 1, 1))), Reach::Plain(3));
        assert_eq!(reach(1, &and(not(within(1, 0)), some(2, and(within(1, 2), multiple(2, 0, 2))))), Reach::Once(2));
        assert_eq!(reach(1, &and(within(1, 0), multiple(2, 0, 1))), Reach::Plain(2));
        assert_eq!(reach(1, &and(single(1), multiple(2, 1, 1))), Reach::Places(2));
        assert_eq!(reach(1, &multiple(2, 1, 0)), Reach::Any);
        assert_eq!(period(&both, 0), 1);
        assert_eq!(period(&some(1, both), 0), 12);
    }

    #[test]
    fn tails_by_number() {
        assert!(tails(1).eq([0b0, 0b1, 0b10, 0b100, 0b1000, 0b11, 0b110, 0b111, 0b1110]));
        for period in 1..20 {
            assert_eq!(tails(period).count() as u32, 4 * period + 5);
            assert_eq!(tails(period).map(|tail| 128 - tail.leading_zeros()).max(), Some(tails_end(period)));
        }
    }
}
