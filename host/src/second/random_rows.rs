//! Row claims made at random, the same ones for the same seed.

use super::random::Random;
use crate::part::Part;
use crate::row_part::{RowPart, and, last, not, some};

impl Random {
    /// A row claim about `sets` sets, with about `signs` signs, and `some` at most `depth` deep. One in four of the signs without
    /// parts is `last`. It does not count.
    pub fn row_claim(&mut self, sets: u8, signs: usize, depth: usize) -> RowPart {
        self.row_claim_of(Random::sign, sets, signs, depth)
    }

    /// The same, of which about a quarter of the signs without parts count.
    pub fn counting_row_claim(&mut self, sets: u8, signs: usize, depth: usize) -> RowPart {
        self.row_claim_of(Random::counting_sign, sets, signs, depth)
    }

    /// A row claim whose signs without parts, but for `last`, are made by `sign`.
    fn row_claim_of(&mut self, sign: fn(&mut Random, u8) -> Part, sets: u8, signs: usize, depth: usize) -> RowPart {
        if signs < 2 {
            return if self.one_in(4) { last(self.set(sets)) } else { RowPart::from(&sign(self, sets)) };
        }
        match self.below(if depth > 0 { 12 } else { 7 }) {
            0..=2 => not(self.row_claim_of(sign, sets, signs - 1, depth)),
            3..=6 => {
                let first = 1 + self.below(signs - 1);
                let c = self.row_claim_of(sign, sets, first, depth);
                and(c, self.row_claim_of(sign, sets, signs - first, depth))
            }
            _ => {
                let x = self.set(sets);
                some(x, self.row_claim_of(sign, sets, signs - 1, depth - 1))
            }
        }
    }

    /// As which sets `sets` sets are taken where there are up to eleven: how many there are, and the numbers, rising, so that first
    /// rows stay the first.
    pub fn row_numbers(&mut self, sets: u8) -> (u8, Vec<u8>) {
        let of = sets + self.below(usize::from(12 - sets)) as u8;
        let mut numbers = self.numbers(of, sets);
        numbers.truncate(sets.into());
        numbers.sort_unstable();
        (of, numbers)
    }
}
