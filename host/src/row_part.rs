//! A row claim as a tree: a claim about a row that has ends.

use crate::part::Part;

/// A claim about sets of places of a row, the sets given by their numbers. The row has a first place and, unless it is empty, a
/// last one; no set has a place behind it.
#[derive(Clone, Debug, PartialEq, Eq, Hash)]
pub enum RowPart {
    /// Every place of the first set is one of the second.
    Within(u8, u8),
    /// The set has exactly one place.
    Single(u8),
    /// Both sets have one place, and the second's comes just behind the first's.
    Next(u8, u8),
    /// Both sets have one place, and the second's comes further on.
    Before(u8, u8),
    /// The set, the third number, has t times the first number and the second places, for some t. The first number is 2 to
    /// 16, the second below it.
    Multiple(u8, u8, u8),
    /// The set has the row's last place alone; no place where the row is empty.
    Last(u8),
    /// The claim does not hold.
    Not(Box<RowPart>),
    /// Both claims hold.
    And(Box<RowPart>, Box<RowPart>),
    /// There is a set of places of the row that, taken for the set with this number, makes the claim hold.
    Some(u8, Box<RowPart>),
}

/// Every place of `x` is one of `y`.
pub fn within(x: u8, y: u8) -> RowPart {
    RowPart::Within(x, y)
}

/// `x` has exactly one place.
pub fn single(x: u8) -> RowPart {
    RowPart::Single(x)
}

/// `x` and `y` have one place each, and `y`'s comes just behind `x`'s.
pub fn next(x: u8, y: u8) -> RowPart {
    RowPart::Next(x, y)
}

/// `x` and `y` have one place each, and `y`'s comes further on.
pub fn before(x: u8, y: u8) -> RowPart {
    RowPart::Before(x, y)
}

/// `x` has a multiple of `modulus` places and `rest` besides. Bytes are no row claim where `modulus` is not 2 to 16, or `rest`
/// not below it.
pub fn multiple(modulus: u8, rest: u8, x: u8) -> RowPart {
    RowPart::Multiple(modulus, rest, x)
}

/// `x` has the row's last place alone; no place where the row is empty.
pub fn last(x: u8) -> RowPart {
    RowPart::Last(x)
}

/// The claim does not hold.
pub fn not(c: RowPart) -> RowPart {
    RowPart::Not(Box::new(c))
}

/// Both claims hold.
pub fn and(c: RowPart, d: RowPart) -> RowPart {
    RowPart::And(Box::new(c), Box::new(d))
}

/// One of the claims holds, or both.
pub fn or(c: RowPart, d: RowPart) -> RowPart {
    not(and(not(c), not(d)))
}

/// There is a set of places of the row that, taken for `x`, makes the claim hold.
pub fn some(x: u8, c: RowPart) -> RowPart {
    RowPart::Some(x, Box::new(c))
}

/// Every set of places of the row, taken for `x`, makes the claim hold.
pub fn every(x: u8, c: RowPart) -> RowPart {
    not(some(x, not(c)))
}

/// The same signs of the same sets, said of a row: a set under some has no place behind it.
impl From<&Part> for RowPart {
    fn from(part: &Part) -> RowPart {
        let row = |c: &Part| Box::new(RowPart::from(c));
        match part {
            Part::Within(x, y) => within(*x, *y),
            Part::Single(x) => single(*x),
            Part::Next(x, y) => next(*x, *y),
            Part::Before(x, y) => before(*x, *y),
            Part::Multiple(modulus, rest, x) => multiple(*modulus, *rest, *x),
            Part::Not(c) => RowPart::Not(row(c)),
            Part::And(c, d) => RowPart::And(row(c), row(d)),
            Part::Some(x, c) => RowPart::Some(*x, row(c)),
        }
    }
}

impl RowPart {
    /// Appends the bytes of the claim: its sign, the numbers by which it counts, those of its sets, then its parts.
    pub fn write(&self, bytes: &mut Vec<u8>) {
        match self {
            RowPart::Within(x, y) => bytes.extend([0, *x, *y]),
            RowPart::Single(x) => bytes.extend([1, *x]),
            RowPart::Next(x, y) => bytes.extend([2, *x, *y]),
            RowPart::Before(x, y) => bytes.extend([3, *x, *y]),
            RowPart::Multiple(modulus, rest, x) => bytes.extend([7, *modulus, *rest, *x]),
            RowPart::Last(x) => bytes.extend([8, *x]),
            RowPart::Not(c) => {
                bytes.push(4);
                c.write(bytes);
            }
            RowPart::And(c, d) => {
                bytes.push(5);
                c.write(bytes);
                d.write(bytes);
            }
            RowPart::Some(x, c) => {
                bytes.extend([6, *x]);
                c.write(bytes);
            }
        }
    }

    /// How many bytes the claim takes, without the number of sets.
    pub fn size(&self) -> usize {
        match self {
            RowPart::Single(_) | RowPart::Last(_) => 2,
            RowPart::Within(..) | RowPart::Next(..) | RowPart::Before(..) => 3,
            RowPart::Multiple(..) => 4,
            RowPart::Not(c) => 1 + c.size(),
            RowPart::And(c, d) => 1 + c.size() + d.size(),
            RowPart::Some(_, c) => 2 + c.size(),
        }
    }

    /// The row claim that bytes say, and about how many sets: the number of sets, 1 to 12, then the claim, all its sets below
    /// that number, counted by 2 to 16 with a rest below that, in at most 1,024 bytes. `None` where the bytes are no row claim.
    pub fn read(bytes: &[u8]) -> Option<(u8, RowPart)> {
        if bytes.len() > 1024 {
            return None;
        }
        let (&sets, body) = bytes.split_first()?;
        if !(1..=12).contains(&sets) {
            return None;
        }
        match read_part(sets, body)? {
            (part, []) => Some((sets, part)),
            _ => None,
        }
    }
}

/// The row claim that bytes begin with, and the bytes behind it.
fn read_part(sets: u8, bytes: &[u8]) -> Option<(RowPart, &[u8])> {
    let set = |x: u8| (x < sets).then_some(x);
    match *bytes {
        [0, x, y, ref rest @ ..] => Some((within(set(x)?, set(y)?), rest)),
        [1, x, ref rest @ ..] => Some((single(set(x)?), rest)),
        [2, x, y, ref rest @ ..] => Some((next(set(x)?, set(y)?), rest)),
        [3, x, y, ref rest @ ..] => Some((before(set(x)?, set(y)?), rest)),
        [4, ref rest @ ..] => {
            let (c, rest) = read_part(sets, rest)?;
            Some((not(c), rest))
        }
        [5, ref rest @ ..] => {
            let (c, rest) = read_part(sets, rest)?;
            let (d, rest) = read_part(sets, rest)?;
            Some((and(c, d), rest))
        }
        [6, x, ref rest @ ..] => {
            let x = set(x)?;
            let (c, rest) = read_part(sets, rest)?;
            Some((some(x, c), rest))
        }
        [7, modulus @ 2..=16, left, x, ref rest @ ..] if left < modulus => {
            Some((multiple(modulus, left, set(x)?), rest))
        }
        [8, x, ref rest @ ..] => Some((last(set(x)?), rest)),
        _ => None,
    }
}

#[cfg(test)]
mod tests {
    use super::*;
    use crate::part;

    #[test]
    fn bytes_and_tree_say_the_same() {
        let claim = some(0, and(and(single(0), last(0)), not(or(multiple(3, 1, 1), before(0, 1)))));
        let mut bytes = vec![2];
        claim.write(&mut bytes);
        assert_eq!(bytes, [2, 6, 0, 5, 5, 1, 0, 8, 0, 4, 4, 5, 4, 7, 3, 1, 1, 4, 3, 0, 1]);
        assert_eq!(claim.size(), 20);
        assert_eq!(RowPart::read(&bytes), Some((2, claim)));
    }

    #[test]
    fn what_is_no_row_claim_is_not_read() {
        for bytes in [&[][..], &[0, 8, 0], &[13, 8, 0], &[1], &[1, 8], &[1, 8, 1], &[1, 9, 0], &[1, 8, 0, 0]] {
            assert_eq!(RowPart::read(bytes), None, "{bytes:?}");
        }
        let nested = |nots: usize| [&[1][..], &vec![4; nots], &[8, 0]].concat();
        assert!(RowPart::read(&nested(1021)).is_some());
        assert!(RowPart::read(&nested(1022)).is_none());
    }

    #[test]
    fn a_claim_said_of_a_row() {
        let claim = part::some(1, part::and(part::next(1, 0), part::not(part::within(1, 0))));
        assert_eq!(RowPart::from(&claim), some(1, and(next(1, 0), not(within(1, 0)))));
    }
}
