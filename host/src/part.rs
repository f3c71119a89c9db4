//! A claim as a tree, and as bytes.

/// A claim about sets of places, the sets given by their numbers.
#[derive(Clone, Debug, PartialEq, Eq, Hash)]
pub enum Part {
    /// Every place of the first set is one of the second.
    Within(u8, u8),
    /// The set has exactly one place.
    Single(u8),
    /// Both sets have one place, and the second's comes just behind the first's.
    Next(u8, u8),
    /// Both sets have one place, and the second's comes further on.
    Before(u8, u8),
    /// The set, the third number, has t times the first number and the second places, for some t. The first number is 2 to
    /// 16, the second below it.
    Multiple(u8, u8, u8),
    /// The claim does not hold.
    Not(Box<Part>),
    /// Both claims hold.
    And(Box<Part>, Box<Part>),
    /// There is a finite set that, taken for the set with this number, makes the claim hold.
    Some(u8, Box<Part>),
}

/// Every place of `x` is one of `y`.
pub fn within(x: u8, y: u8) -> Part {
    Part::Within(x, y)
}

/// `x` has exactly one place.
pub fn single(x: u8) -> Part {
    Part::Single(x)
}

/// `x` and `y` have one place each, and `y`'s comes just behind `x`'s.
pub fn next(x: u8, y: u8) -> Part {
    Part::Next(x, y)
}

/// `x` and `y` have one place each, and `y`'s comes further on.
pub fn before(x: u8, y: u8) -> Part {
    Part::Before(x, y)
}

/// `x` has a multiple of `modulus` places and `rest` besides. Bytes are no claim where `modulus` is not 2 to 16, or `rest` not
/// below it.
pub fn multiple(modulus: u8, rest: u8, x: u8) -> Part {
    Part::Multiple(modulus, rest, x)
}

/// The claim does not hold.
pub fn not(c: Part) -> Part {
    Part::Not(Box::new(c))
}

/// Both claims hold.
pub fn and(c: Part, d: Part) -> Part {
    Part::And(Box::new(c), Box::new(d))
}

/// One of the claims holds, or both.
pub fn or(c: Part, d: Part) -> Part {
    not(and(not(c), not(d)))
}

/// There is a finite set that, taken for `x`, makes the claim hold.
pub fn some(x: u8, c: Part) -> Part {
    Part::Some(x, Box::new(c))
}

/// Every finite set, taken for `x`, makes the claim hold.
pub fn every(x: u8, c: Part) -> Part {
    not(some(x, not(c)))
}

impl Part {
    /// Appends the bytes of the claim: its sign, the numbers by which it counts, those of its sets, then its parts.
    pub fn write(&self, bytes: &mut Vec<u8>) {
        match self {
            Part::Within(x, y) => bytes.extend([0, *x, *y]),
            Part::Single(x) => bytes.extend([1, *x]),
            Part::Next(x, y) => bytes.extend([2, *x, *y]),
            Part::Before(x, y) => bytes.extend([3, *x, *y]),
            Part::Multiple(modulus, rest, x) => bytes.extend([7, *modulus, *rest, *x]),
            Part::Not(c) => {
                bytes.push(4);
                c.write(bytes);
            }
            Part::And(c, d) => {
                bytes.push(5);
                c.write(bytes);
                d.write(bytes);
            }
            Part::Some(x, c) => {
                bytes.extend([6, *x]);
                c.write(bytes);
            }
        }
    }

    /// How many bytes the claim takes, without the number of sets.
    pub fn size(&self) -> usize {
        match self {
            Part::Single(_) => 2,
            Part::Within(..) | Part::Next(..) | Part::Before(..) => 3,
            Part::Multiple(..) => 4,
            Part::Not(c) => 1 + c.size(),
            Part::And(c, d) => 1 + c.size() + d.size(),
            Part::Some(_, c) => 2 + c.size(),
        }
    }

    /// The same claim of other sets: of `sets[x]` in place of x, free or of a `some`. Where no two are the same it says of these
    /// what it said of those.
    ///
    /// # Panics
    ///
    /// Where there is none for a set of the claim.
    pub fn renamed(&self, sets: &[u8]) -> Part {
        let set = |x: &u8| sets[usize::from(*x)];
        match self {
            Part::Within(x, y) => within(set(x), set(y)),
            Part::Single(x) => single(set(x)),
            Part::Next(x, y) => next(set(x), set(y)),
            Part::Before(x, y) => before(set(x), set(y)),
            Part::Multiple(modulus, rest, x) => multiple(*modulus, *rest, set(x)),
            Part::Not(c) => not(c.renamed(sets)),
            Part::And(c, d) => and(c.renamed(sets), d.renamed(sets)),
            Part::Some(x, c) => some(set(x), c.renamed(sets)),
        }
    }

    /// The claim that bytes say, and about how many sets: the number of sets, 1 to 12, then the claim, all its sets
    /// below that number, counted by 2 to 16 with a rest below that, in at most 1,024 bytes. `None` where the bytes are no
    /// claim.
    pub fn read(bytes: &[u8]) -> Option<(u8, Part)> {
        if bytes.len() > 1024 {
            return None;
        }
        let (&sets, body) = bytes.split_first()?;
        if !(1..=12).contains(&sets) {
            return None;
        }
        match read_part(sets, body)? {
            (part, []) => Some((sets, part)),
            _ => None,
        }
    }
}

/// The claim that bytes begin with, and the bytes behind it.
fn read_part(sets: u8, bytes: &[u8]) -> Option<(Part, &[u8])> {
    let set = |x: u8| (x < sets).then_some(x);
    match *bytes {
        [0, x, y, ref rest @ ..] => Some((within(set(x)?, set(y)?), rest)),
        [1, x, ref rest @ ..] => Some((single(set(x)?), rest)),
        [2, x, y, ref rest @ ..] => Some((next(set(x)?, set(y)?), rest)),
        [3, x, y, ref rest @ ..] => Some((before(set(x)?, set(y)?), rest)),
        [4, ref rest @ ..] => {
            let (c, rest) = read_part(sets, rest)?;
            Some((not(c), rest))
        }
        [5, ref rest @ ..] => {
            let (c, rest) = read_part(sets, rest)?;
            let (d, rest) = read_part(sets, rest)?;
            Some((and(c, d), rest))
        }
        [6, x, ref rest @ ..] => {
            let x = set(x)?;
            let (c, rest) = read_part(sets, rest)?;
            Some((some(x, c), rest))
        }
        [7, modulus @ 2..=16, left, x, ref rest @ ..] if left < modulus => {
            Some((multiple(modulus, left, set(x)?), rest))
        }
        _ => None,
    }
}

#[cfg(test)]
mod tests {
    use super::*;

    #[test]
    fn bytes_and_tree_say_the_same() {
        let part = some(1, and(next(1, 0), not(within(1, 0))));
        let mut bytes = vec![2];
        part.write(&mut bytes);
        assert_eq!(bytes, [2, 6, 1, 5, 2, 1, 0, 4, 0, 1, 0]);
        assert_eq!(part.size(), 10);
        assert_eq!(Part::read(&bytes), Some((2, part)));
    }

    #[test]
    fn a_claim_of_other_sets() {
        let part =
            some(1, and(next(1, 0), not(and(within(1, 2), and(multiple(3, 0, 2), and(single(1), before(0, 1)))))));
        let other =
            some(0, and(next(0, 9), not(and(within(0, 5), and(multiple(3, 0, 5), and(single(0), before(9, 0)))))));
        assert_eq!(part.renamed(&[9, 0, 5]), other);
        assert_eq!(part.renamed(&[0, 1, 2]), part);
    }

    #[test]
    fn counts_as_bytes_and_tree() {
        for (modulus, rest) in [(2, 0), (2, 1), (3, 2), (16, 15)] {
            let part = and(not(multiple(modulus, rest, 1)), single(0));
            let bytes = [2, 5, 4, 7, modulus, rest, 1, 1, 0];
            let mut written = vec![2];
            part.write(&mut written);
            assert_eq!(written, bytes);
            assert_eq!(part.size(), 8);
            assert_eq!(Part::read(&bytes), Some((2, part)));
        }
    }

    /// Counted by 0, by 1, by more than 16; a rest that is not below; a set that there is not; bytes that end too early or
    /// too late.
    #[test]
    fn counts_that_are_no_claims() {
        for bytes in [
            &[1, 7, 0, 0, 0][..],
            &[1, 7, 1, 0, 0],
            &[1, 7, 17, 0, 0],
            &[1, 7, 255, 0, 0],
            &[1, 7, 2, 2, 0],
            &[1, 7, 2, 255, 0],
            &[1, 7, 16, 16, 0],
            &[1, 7, 2, 0, 1],
            &[12, 7, 2, 0, 12],
            &[1, 7],
            &[1, 7, 2],
            &[1, 7, 2, 0],
            &[1, 7, 2, 0, 0, 0],
        ] {
            assert_eq!(Part::read(bytes), None, "{bytes:?}");
        }
    }

    #[test]
    fn what_is_no_claim_is_not_read() {
        for bytes in
            [&[][..], &[0, 1, 0], &[13, 1, 0], &[1], &[1, 1], &[1, 1, 1], &[1, 7, 0], &[1, 1, 0, 0], &[2, 5, 1, 0]]
        {
            assert_eq!(Part::read(bytes), None, "{bytes:?}");
        }
        let nested = |nots: usize| [&[1][..], &vec![4; nots], &[1, 0]].concat();
        assert!(Part::read(&nested(1021)).is_some());
        assert!(Part::read(&nested(1022)).is_none());
    }
}
