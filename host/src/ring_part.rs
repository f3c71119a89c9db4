//! A ring claim as a tree: a claim about a row that goes round.

use crate::row_part::{self, RowPart};

/// A claim about sets of places of a ring, the sets given by their numbers. Behind the last place comes the first again, so there
/// is no place before another, and none is the last.
#[derive(Clone, Debug, PartialEq, Eq, Hash)]
pub enum RingPart {
    /// Every place of the first set is one of the second.
    Within(u8, u8),
    /// The set has exactly one place.
    Single(u8),
    /// Both sets have one place, and the second's is the next of the first's: of the last place that is the first. So in a ring of
    /// one its place is next to itself.
    Next(u8, u8),
    /// The set, the third number, has t times the first number and the second places, for some t. The first number is 2 to
    /// 16, the second below it.
    Multiple(u8, u8, u8),
    /// The claim does not hold.
    Not(Box<RingPart>),
    /// Both claims hold.
    And(Box<RingPart>, Box<RingPart>),
    /// There is a set of places of the ring that, taken for the set with this number, makes the claim hold.
    Some(u8, Box<RingPart>),
}

/// Every place of `x` is one of `y`.
pub fn within(x: u8, y: u8) -> RingPart {
    RingPart::Within(x, y)
}

/// `x` has exactly one place.
pub fn single(x: u8) -> RingPart {
    RingPart::Single(x)
}

/// `x` and `y` have one place each, and `y`'s is the next of `x`'s: of the last place that is the first.
pub fn next(x: u8, y: u8) -> RingPart {
    RingPart::Next(x, y)
}

/// `x` has a multiple of `modulus` places and `rest` besides. Bytes are no ring claim where `modulus` is not 2 to 16, or `rest`
/// not below it.
pub fn multiple(modulus: u8, rest: u8, x: u8) -> RingPart {
    RingPart::Multiple(modulus, rest, x)
}

/// The claim does not hold.
pub fn not(c: RingPart) -> RingPart {
    RingPart::Not(Box::new(c))
}

/// Both claims hold.
pub fn and(c: RingPart, d: RingPart) -> RingPart {
    RingPart::And(Box::new(c), Box::new(d))
}

/// One of the claims holds, or both.
pub fn or(c: RingPart, d: RingPart) -> RingPart {
    not(and(not(c), not(d)))
}

/// There is a set of places of the ring that, taken for `x`, makes the claim hold.
pub fn some(x: u8, c: RingPart) -> RingPart {
    RingPart::Some(x, Box::new(c))
}

/// Every set of places of the ring, taken for `x`, makes the claim hold.
pub fn every(x: u8, c: RingPart) -> RingPart {
    not(some(x, not(c)))
}

/// The same signs of the same sets, said of a row that ends: the same bytes, but `next` does not go round.
impl From<&RingPart> for RowPart {
    fn from(part: &RingPart) -> RowPart {
        match part {
            RingPart::Within(x, y) => row_part::within(*x, *y),
            RingPart::Single(x) => row_part::single(*x),
            RingPart::Next(x, y) => row_part::next(*x, *y),
            RingPart::Multiple(modulus, rest, x) => row_part::multiple(*modulus, *rest, *x),
            RingPart::Not(c) => row_part::not(RowPart::from(&**c)),
            RingPart::And(c, d) => row_part::and(RowPart::from(&**c), RowPart::from(&**d)),
            RingPart::Some(x, c) => row_part::some(*x, RowPart::from(&**c)),
        }
    }
}

impl RingPart {
    /// The same signs of the same sets, said of a ring; `None` where one of them is `before` or `last`, which say nothing of a ring.
    pub fn of_row(part: &RowPart) -> Option<RingPart> {
        Some(match part {
            RowPart::Within(x, y) => within(*x, *y),
            RowPart::Single(x) => single(*x),
            RowPart::Next(x, y) => next(*x, *y),
            RowPart::Before(..) | RowPart::Last(_) => return None,
            RowPart::Multiple(modulus, rest, x) => multiple(*modulus, *rest, *x),
            RowPart::Not(c) => not(RingPart::of_row(c)?),
            RowPart::And(c, d) => and(RingPart::of_row(c)?, RingPart::of_row(d)?),
            RowPart::Some(x, c) => some(*x, RingPart::of_row(c)?),
        })
    }

    /// Appends the bytes of the claim, those of the row claim with the same signs.
    pub fn write(&self, bytes: &mut Vec<u8>) {
        RowPart::from(self).write(bytes);
    }

    /// How many bytes the claim takes, without the number of sets.
    pub fn size(&self) -> usize {
        RowPart::from(self).size()
    }

    /// The ring claim that bytes say, and about how many sets: they are those of a row claim without `before` and `last`. `None`
    /// where the bytes are no ring claim.
    pub fn read(bytes: &[u8]) -> Option<(u8, RingPart)> {
        let (sets, part) = RowPart::read(bytes)?;
        Some((sets, RingPart::of_row(&part)?))
    }
}

#[cfg(test)]
mod tests {
    use super::*;

    #[test]
    fn bytes_and_tree_say_the_same() {
        let claim = some(0, and(and(single(0), next(0, 0)), not(or(multiple(3, 1, 1), within(0, 1)))));
        let mut bytes = vec![2];
        claim.write(&mut bytes);
        assert_eq!(bytes, [2, 6, 0, 5, 5, 1, 0, 2, 0, 0, 4, 4, 5, 4, 7, 3, 1, 1, 4, 0, 0, 1]);
        assert_eq!(claim.size(), 21);
        assert_eq!(RingPart::read(&bytes), Some((2, claim)));
    }

    #[test]
    fn what_is_no_ring_claim_is_not_read() {
        for bytes in [&[][..], &[0, 1, 0], &[13, 1, 0], &[1], &[1, 1], &[1, 1, 1], &[1, 9, 0], &[1, 1, 0, 0]] {
            assert_eq!(RingPart::read(bytes), None, "{bytes:?}");
        }
        // before and last, alone and as a part
        for bytes in [&[2, 3, 0, 1][..], &[1, 8, 0], &[2, 5, 1, 0, 4, 3, 0, 1], &[1, 6, 0, 8, 0]] {
            assert!(RowPart::read(bytes).is_some());
            assert_eq!(RingPart::read(bytes), None, "{bytes:?}");
        }
    }
}
