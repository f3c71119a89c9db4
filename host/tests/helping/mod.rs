//! With which helpers a step keeps a claim, searched row by row from a rule file alone. What each formula says of a row and of the row
//! after it is kept as bits, so that a choice of helpers is compared with bits.

#![allow(dead_code)] // each search takes a part of it

use std::collections::BTreeSet;
use std::iter::successors;

use ceivuron::MOST_HELPERS;

use crate::formula::Formula;
use crate::keeping::{Keeping, read, rows};
use crate::rule_files::Rule;

/// What was seen of a row: whether a run may begin with it, and which formulas hold of it and of the row after it. Bit 0 is the claim,
/// bit i helper i.
#[derive(Clone, Copy, PartialEq, Eq, PartialOrd, Ord)]
struct Seen {
    starts: bool,
    now: u32,
    after: u32,
}

impl Seen {
    /// Whether the row shows that these formulas, taken together, are not kept.
    fn breaks(self, formulas: u32) -> bool {
        let hold = |holding: u32| holding & formulas == formulas;
        if hold(self.now) { !hold(self.after) } else { self.starts }
    }

    /// Of formulas those that do not hold of the row, where a run may begin with it; and of the row after it, where all hold before.
    fn lost(self, formulas: u32) -> u32 {
        let at_the_start = if self.starts { formulas & !self.now } else { 0 };
        let in_a_step = if self.now & formulas == formulas { formulas & !self.after } else { 0 };
        at_the_start | in_a_step
    }
}

/// A kept claim of a rule and a list of helpers, with what was seen of rows.
pub struct Helping<'r> {
    claim: Keeping<'r>,
    helpers: Vec<Formula>,
    columns: usize,
    seen: BTreeSet<Seen>,
}

/// The bits of the claim and of the helpers of a choice.
fn bits(choice: &[usize]) -> u32 {
    choice.iter().fold(1, |bits, helper| bits | 1 << helper)
}

/// The choice of so many helpers behind another, if there is one.
fn next(choice: &[usize], helpers: usize) -> Option<Vec<usize>> {
    let size = choice.len();
    // the last number that may be larger becomes so by one, and those behind it follow it
    match (0..size).rfind(|at| choice[*at] < helpers + at + 1 - size) {
        Some(at) => Some(choice[..at].iter().copied().chain(choice[at] + 1..=choice[at] + size - at).collect()),
        None if size < MOST_HELPERS.min(helpers) => Some((1..=size + 1).collect()),
        None => None,
    }
}

/// All choices of so many helpers, in their order: smaller ones first, those of one size by the first number that differs.
pub fn choices(helpers: usize) -> impl Iterator<Item = Vec<usize>> {
    successors(Some(Vec::new()), move |choice| next(choice, helpers))
}

impl<'r> Helping<'r> {
    /// A claim and such helpers, where no row was looked at.
    pub fn of<'t>(rule: &'r Rule, claim: &str, helpers: impl IntoIterator<Item = &'t String>) -> Helping<'r> {
        let helpers: Vec<Formula> = helpers.into_iter().map(|helper| read(rule, helper)).collect();
        assert!(helpers.len() < 32);
        Helping { claim: Keeping::of(rule, claim), helpers, columns: rule.columns(), seen: BTreeSet::new() }
    }

    /// Which formulas hold of a row.
    fn holding(&self, row: &[usize]) -> u32 {
        let helping = self.helpers.iter().map(|helper| self.claim.holds(helper, row));
        let holding = [self.claim.has(row)].into_iter().chain(helping).enumerate();
        holding.fold(0, |bits, (at, holds)| bits | u32::from(holds) << at)
    }

    /// Looks at one row.
    pub fn look_at(&mut self, row: &[usize]) {
        let after = self.holding(&self.claim.after(row));
        self.seen.insert(Seen { starts: self.claim.starts(row), now: self.holding(row), after });
    }

    /// Looks at all rows of up to that many modules.
    pub fn look_up_to(&mut self, longest: usize) {
        for length in 0..=longest {
            let now: Vec<u32> = rows(self.columns, length).map(|row| self.holding(&row)).collect();
            for (row, now_of) in rows(self.columns, length).zip(&now) {
                let after = self.claim.after(&row).iter().fold(0, |number, module| number * self.columns + module);
                self.seen.insert(Seen { starts: self.claim.starts(&row), now: *now_of, after: now[after] });
            }
        }
    }

    /// As how many modules rows may have, at most `most`, so that of no length more than so many rows are tried for a formula.
    pub fn searchable(&self, most: usize, tries: usize) -> usize {
        self.claim.searchable_with(&self.helpers, most, tries)
    }

    /// Whether a row that was looked at shows that the claim with this choice is not kept.
    pub fn is_broken(&self, choice: &[usize]) -> bool {
        self.seen.iter().any(|seen| seen.breaks(bits(choice)))
    }

    /// The first choice that no row breaks which was looked at.
    pub fn first(&self) -> Option<Vec<usize>> {
        choices(self.helpers.len()).find(|choice| !self.is_broken(choice))
    }

    /// Whether a run may begin with a row, of those that were looked at, that has not the claim.
    pub fn fails_at_the_start(&self) -> bool {
        self.seen.iter().any(|seen| seen.starts && seen.now & 1 == 0)
    }

    /// Whether of the rows that were looked at some have the claim and some have not, and a run may begin with one.
    pub fn says_something(&self) -> bool {
        let any = |is_so: fn(&Seen) -> bool| self.seen.iter().any(is_so);
        any(|seen| seen.starts) && any(|seen| seen.now & 1 == 0) && any(|seen| seen.now & 1 == 1)
    }

    /// The most helpers that hold wherever the start does, and after each row of which they and the claim hold, as far as rows were looked
    /// at. All helpers of a choice that no row breaks are among them.
    pub fn kept_with_the_claim(&self) -> Vec<usize> {
        let mut helpers: Vec<usize> = (1..=self.helpers.len()).collect();
        loop {
            let formulas = bits(&helpers);
            let lost = self.seen.iter().fold(0, |lost, seen| lost | seen.lost(formulas)) & !1;
            if lost == 0 {
                return helpers;
            }
            helpers.retain(|helper| lost >> helper & 1 == 0);
        }
    }
}
