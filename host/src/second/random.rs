//! Claims and bytes made at random, the same ones for the same seed.

use crate::part::{Part, and, before, multiple, next, not, single, some, within};

/// A small generator of random numbers (splitmix64): the state goes up by a constant, and is mixed.
pub struct Random(u64);

impl Random {
    pub fn new(seed: u64) -> Random {
        Random(seed)
    }

    pub fn word(&mut self) -> u64 {
        self.0 = self.0.wrapping_add(0x9e37_79b9_7f4a_7c15);
        let mut z = self.0;
        z = (z ^ z >> 30).wrapping_mul(0xbf58_476d_1ce4_e5b9);
        z = (z ^ z >> 27).wrapping_mul(0x94d0_49bb_1331_11eb);
        z ^ z >> 31
    }

    /// A number below `end`.
    pub fn below(&mut self, end: usize) -> usize {
        (self.word() % end as u64) as usize
    }

    /// Whether one of so many chances came up.
    pub fn one_in(&mut self, chances: usize) -> bool {
        self.below(chances) == 0
    }

    /// A claim about `sets` sets, with about `signs` signs, and `some` at most `depth` deep. It does not count.
    pub fn claim(&mut self, sets: u8, signs: usize, depth: usize) -> Part {
        self.claim_of(Random::sign, sets, signs, depth)
    }

    /// The same, of which about a third of the signs without parts count.
    pub fn counting_claim(&mut self, sets: u8, signs: usize, depth: usize) -> Part {
        self.claim_of(Random::counting_sign, sets, signs, depth)
    }

    /// A claim of `sets` sets as one of `of`, of which it mentions as many as before, any of them in any order.
    pub fn among(&mut self, of: u8, sets: u8, claim: &Part) -> Part {
        claim.renamed(&self.numbers(of, sets))
    }

    /// The numbers below `of`, of which the first `sets` are any of them in any order.
    pub(super) fn numbers(&mut self, of: u8, sets: u8) -> Vec<u8> {
        let mut numbers: Vec<u8> = (0..of).collect();
        for i in 0..usize::from(sets) {
            let other = i + self.below(numbers.len() - i);
            numbers.swap(i, other);
        }
        numbers
    }

    /// The same of so many sets that there are up to twelve: how many, and the claim.
    pub fn among_more(&mut self, sets: u8, claim: &Part) -> (u8, Part) {
        let of = sets + self.below(usize::from(13 - sets)) as u8;
        (of, self.among(of, sets, claim))
    }

    /// A claim whose signs without parts are made by `sign`.
    fn claim_of(&mut self, sign: fn(&mut Random, u8) -> Part, sets: u8, signs: usize, depth: usize) -> Part {
        if signs < 2 {
            return sign(self, sets);
        }
        match self.below(if depth > 0 { 12 } else { 7 }) {
            0..=2 => not(self.claim_of(sign, sets, signs - 1, depth)),
            3..=6 => {
                let first = 1 + self.below(signs - 1);
                let c = self.claim_of(sign, sets, first, depth);
                and(c, self.claim_of(sign, sets, signs - first, depth))
            }
            _ => {
                let x = self.set(sets);
                some(x, self.claim_of(sign, sets, signs - 1, depth - 1))
            }
        }
    }

    /// The number of a set.
    pub(super) fn set(&mut self, sets: u8) -> u8 {
        self.below(usize::from(sets)) as u8
    }

    pub(super) fn sign(&mut self, sets: u8) -> Part {
        let (x, y) = (self.set(sets), self.set(sets));
        match self.below(4) {
            0 => within(x, y),
            1 => single(x),
            2 => next(x, y),
            _ => before(x, y),
        }
    }

    /// A sign without parts; one in three counts, mostly by 2 to 4, now and then by up to 16.
    pub(super) fn counting_sign(&mut self, sets: u8) -> Part {
        if !self.one_in(3) {
            return self.sign(sets);
        }
        let modulus = if self.one_in(12) { 2 + self.below(15) } else { [2, 2, 2, 3, 3, 4][self.below(6)] };
        multiple(modulus as u8, self.below(modulus) as u8, self.set(sets))
    }
}
