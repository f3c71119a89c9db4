//! What was compared of row claims, counted.

use std::fmt;

use super::row_form::{depth, says_last};
use crate::row_part::RowPart;

/// What was compared, over all row claims.
#[derive(Clone, Debug, Default)]
pub struct RowTally {
    pub claims: usize,
    pub always: usize,
    pub never: usize,
    pub both: usize,
    /// Claims of which too many classes must be told apart, or that take more states than are made; nothing else is compared of them.
    pub many: usize,
    /// Claims that say `last` of a set.
    pub with_last: usize,
    /// Claims by how deep `some` is nested: 0, 1, 2, 3 or more.
    pub depths: [usize; 4],
    /// Claims of which all rows of up to so many places are looked at.
    pub places: [usize; 7],
    pub rows: usize,
    /// The most places of a first row.
    pub longest: usize,
}

impl RowTally {
    pub fn note_form(&mut self, claim: &RowPart) {
        self.with_last += usize::from(says_last(claim));
        self.depths[depth(claim).min(3) as usize] += 1;
    }
}

impl fmt::Display for RowTally {
    fn fmt(&self, f: &mut fmt::Formatter<'_>) -> fmt::Result {
        let RowTally { claims, always, never, both, many, with_last, rows, longest, .. } = self;
        writeln!(f, "  {claims} row claims: {always} always, {never} never, {both} both, {many} too many classes")?;
        let [none, once, twice, more] = self.depths;
        writeln!(f, "  with last {with_last}; some nested 0 deep {none}, 1 {once}, 2 {twice}, 3 and more {more}")?;
        writeln!(f, "  all rows of up to 0, 1, ... 6 places looked at: {:?} claims; {rows} rows", self.places)?;
        write!(f, "  first rows of up to {longest} places compared")
    }
}
