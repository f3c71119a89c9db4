//! What was compared of ring claims, counted.

use std::fmt;

use super::row_form::depth;
use crate::ring_part::RingPart;
use crate::row_part::RowPart;

/// What was compared, over all ring claims.
#[derive(Clone, Debug, Default)]
pub struct RingTally {
    pub claims: usize,
    pub always: usize,
    pub never: usize,
    pub both: usize,
    /// Claims of which too many classes must be told apart, or that take more states than are made; nothing else is compared of them.
    pub many: usize,
    /// Claims that say `next` of two sets.
    pub with_next: usize,
    /// Claims whose answer is another than that on the row claim with the same signs.
    pub unlike_rows: usize,
    /// Claims by how deep `some` is nested: 0, 1, 2, 3 or more.
    pub depths: [usize; 4],
    /// Claims of which all rings of up to so many places are looked at.
    pub places: [usize; 7],
    pub rings: usize,
    /// The most places of a first ring.
    pub longest: usize,
}

impl RingTally {
    pub fn note_form(&mut self, claim: &RingPart) {
        self.with_next += usize::from(says_next(claim));
        self.depths[depth(&RowPart::from(claim)).min(3) as usize] += 1;
    }
}

/// Whether it says `next` of two sets.
pub(super) fn says_next(claim: &RingPart) -> bool {
    match claim {
        RingPart::Next(x, y) => x != y,
        RingPart::Not(c) | RingPart::Some(_, c) => says_next(c),
        RingPart::And(c, d) => says_next(c) || says_next(d),
        RingPart::Within(..) | RingPart::Single(_) | RingPart::Multiple(..) => false,
    }
}

impl fmt::Display for RingTally {
    fn fmt(&self, f: &mut fmt::Formatter<'_>) -> fmt::Result {
        let RingTally { claims, always, never, both, many, with_next, unlike_rows, rings, longest, .. } = self;
        writeln!(f, "  {claims} ring claims: {always} always, {never} never, {both} both, {many} too many classes")?;
        let [none, once, twice, more] = self.depths;
        write!(f, "  with next of two sets {with_next}; answered otherwise of rows {unlike_rows}; ")?;
        writeln!(f, "some nested 0 deep {none}, 1 {once}, 2 {twice}, 3 and more {more}")?;
        writeln!(f, "  all rings of up to 0, 1, ... 6 places looked at: {:?} claims; {rings} rings", self.places)?;
        write!(f, "  first rings of up to {longest} places compared")
    }
}
