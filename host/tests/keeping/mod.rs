//! What a step keeps, searched row by row from a rule file alone.

#![allow(dead_code)] // each search takes a part of it

use ceivuron::Moment;

use crate::formula::Formula;
use crate::rule_files::{Rule, Seen};

/// A row at which a claim is not kept: where, and the row after it.
#[derive(Debug, PartialEq, Eq)]
pub struct Break {
    pub moment: Moment,
    pub row: Vec<usize>,
    pub after: Vec<usize>,
}

/// A kept claim of a rule, with the starts.
pub struct Keeping<'r> {
    rule: &'r Rule,
    starts: Vec<Formula>,
    claim: Formula,
    /// The module after a step, for each module with its neighbours, by its number.
    step: Vec<usize>,
}

/// The number of a module with its neighbours, of so many columns.
fn number(columns: usize, [left, own, right]: Seen) -> usize {
    let side = |module: Option<usize>| module.map_or(0, |module| module + 1);
    (side(left) * columns + own.unwrap()) * (columns + 1) + side(right)
}

/// Each module with its neighbours, in the order of their numbers.
pub fn all_seen(columns: usize) -> impl Iterator<Item = Seen> {
    let side = move || (0..=columns).map(|number| number.checked_sub(1));
    side().flat_map(move |left| (0..columns).flat_map(move |own| side().map(move |right| [left, Some(own), right])))
}

/// A formula about the rows of a rule.
pub fn read(rule: &Rule, text: &str) -> Formula {
    Formula::read(&rule.bits, rule.ring, text)
}

impl<'r> Keeping<'r> {
    /// That a step keeps the formula `claim`.
    pub fn of(rule: &'r Rule, claim: &str) -> Keeping<'r> {
        Keeping {
            rule,
            starts: rule.starts.iter().map(|start| read(rule, start)).collect(),
            claim: read(rule, claim),
            step: all_seen(rule.columns()).map(|seen| rule.after(seen)).collect(),
        }
    }

    /// Whether a formula holds of the row.
    pub fn holds(&self, formula: &Formula, row: &[usize]) -> bool {
        formula.holds(self.rule.bits.len(), self.rule.ring, row)
    }

    /// Whether the row has the claim.
    pub fn has(&self, row: &[usize]) -> bool {
        self.holds(&self.claim, row)
    }

    /// Whether a run may begin with the row.
    pub fn starts(&self, row: &[usize]) -> bool {
        self.starts.iter().all(|start| self.holds(start, row))
    }

    /// The row after one step: all modules look at the row as it was.
    pub fn after(&self, row: &[usize]) -> Vec<usize> {
        let columns = self.rule.columns();
        (0..row.len()).map(|at| self.step[number(columns, self.rule.seen(row, at))]).collect()
    }

    /// How the claim is not kept at this row, if it is not.
    pub fn broken_at(&self, row: &[usize]) -> Option<Break> {
        let moment = match self.has(row) {
            false if self.starts(row) => Moment::Start,
            true if !self.has(&self.after(row)) => Moment::Step,
            _ => return None,
        };
        Some(Break { moment, row: row.to_vec(), after: self.after(row) })
    }

    /// The first row of up to that many modules at which the claim is not kept, if there is one.
    pub fn first(&self, longest: usize) -> Option<Break> {
        (0..=longest).flat_map(|length| rows(self.rule.columns(), length)).find_map(|row| self.broken_at(&row))
    }

    /// As how many modules rows may have, at most `most`, so that of no length more than so many rows are tried. A row counts once for
    /// each set of its places where there are quantifiers of sets, and more often where these stand within one another.
    pub fn searchable(&self, most: usize, tries: usize) -> usize {
        self.searchable_with(&[], most, tries)
    }

    /// The same, where these formulas are looked at too.
    pub fn searchable_with(&self, formulas: &[Formula], most: usize, tries: usize) -> usize {
        let all = self.starts.iter().chain([&self.claim]).chain(formulas);
        let deep = all.map(Formula::sets_within).max().unwrap_or(0);
        let factor = self.rule.columns() << deep;
        (1..=most).take_while(|length| factor.pow(*length as u32) <= tries).last().unwrap_or(0)
    }
}

/// The rows of that many modules, in their order: by the first column that differs.
pub fn rows(columns: usize, length: usize) -> impl Iterator<Item = Vec<usize>> {
    (0..columns.pow(length as u32)).map(move |number| {
        let behind = |at: usize| columns.pow((length - 1 - at) as u32);
        (0..length).map(|at| number / behind(at) % columns).collect()
    })
}
