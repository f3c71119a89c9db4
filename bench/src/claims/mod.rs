//! The claims that are measured, in families: a claim for each number that a family is asked for.

mod counting;
mod numbers;
mod places;

use ceivuron::part::{Part, and, not, or};
use ceivuron::{Answer, Claim};

use crate::plain::Plain;

pub use counting::{apart, few_of, four_of, lanes, marks, trays};
pub use numbers::{adder, adders, order, orders};
pub use places::{one_of, row, singles};

/// A claim of a family: about so many sets.
pub struct Sample {
    pub sets: u8,
    pub part: Part,
}

impl Sample {
    /// # Panics
    ///
    /// Where it is no claim: it would take more than 12 sets, or more than 1,024 bytes.
    pub fn claim(&self) -> Claim {
        let claim = Claim::new(self.sets, &self.part);
        assert!(claim.read().is_some(), "{} sets, {} bytes", self.sets, claim.bytes().len());
        claim
    }
}

/// The least number of classes with which a claim is judged, by plain Rust.
pub fn least(claim: &Claim) -> u32 {
    let mut plain = Plain::default();
    let mut many = |most| plain.judge(claim.bytes(), most) == Answer::Many;
    let (mut below, mut fits) = (0, 1);
    while many(fits) {
        (below, fits) = (fits, 2 * fits);
    }
    while fits - below > 1 {
        let middle = below + (fits - below) / 2;
        if many(middle) { below = middle } else { fits = middle }
    }
    fits
}

/// All of them hold. There is one at least.
fn all(parts: impl IntoIterator<Item = Part>) -> Part {
    parts.into_iter().reduce(and).expect("more than none")
}

/// One of the two holds, and not both.
fn either(c: Part, d: Part) -> Part {
    and(or(c.clone(), d.clone()), not(and(c, d)))
}

/// Both hold, or neither.
fn alike(c: Part, d: Part) -> Part {
    not(either(c, d))
}
