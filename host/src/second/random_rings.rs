//! Ring claims made at random, the same ones for the same seed.

use super::random::Random;
use crate::part::Part;
use crate::ring_part::{RingPart, and, multiple, next, not, single, some, within};

impl Random {
    /// A ring claim about `sets` sets, with about `signs` signs, and `some` at most `depth` deep. About a third of the signs without
    /// parts count; of the others more than a third are `next`.
    pub fn ring_claim(&mut self, sets: u8, signs: usize, depth: usize) -> RingPart {
        of_ring(&self.counting_claim(sets, signs, depth))
    }
}

/// The claim said of a ring, with `next` where it says `before`.
fn of_ring(part: &Part) -> RingPart {
    match part {
        Part::Within(x, y) => within(*x, *y),
        Part::Single(x) => single(*x),
        Part::Next(x, y) | Part::Before(x, y) => next(*x, *y),
        Part::Multiple(modulus, rest, x) => multiple(*modulus, *rest, *x),
        Part::Not(c) => not(of_ring(c)),
        Part::And(c, d) => and(of_ring(c), of_ring(d)),
        Part::Some(x, c) => some(*x, of_ring(c)),
    }
}
