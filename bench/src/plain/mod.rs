//! The operations of the call, written in plain Rust with the same algorithms: a table for each part over the columns of the sets that it
//! mentions, pairs for `and`, sets of classes for `some`, joining by splitting (by rounds where a table is small), first words by a pass
//! that ends once both are found. Nothing here is proved; it is there to see what the proved code costs against code that is written
//! freely.

mod atoms;
mod minimize;
mod narrow;
mod pairs;
mod product;
mod project;
mod repeats;
mod rounds;
mod selection;
mod shortest;
mod splitting;

use ceivuron::Answer;
use ceivuron::part::Part;

use narrow::Narrow;
use pairs::Pairs;

/// A row of `width` classes for each class, and which classes accept.
pub(crate) struct Table {
    rows: Vec<u32>,
    accept: Vec<bool>,
    width: usize,
}

impl Table {
    fn classes(&self) -> usize {
        self.accept.len()
    }

    fn next(&self, q: u32, column: usize) -> u32 {
        self.rows[q as usize * self.width + column]
    }

    fn row(&self, q: u32) -> &[u32] {
        &self.rows[q as usize * self.width..][..self.width]
    }

    /// Where a column leads, class by class.
    fn column(&self, column: usize) -> impl Iterator<Item = u32> + '_ {
        self.rows[column..].iter().step_by(self.width).copied()
    }
}

/// What is wanted of a part's table. Of the whole claim's only words are wanted, so that what is alike in it is not joined, nor below a
/// `not`; what a sign combines are exact tables.
#[derive(Clone, Copy)]
enum Wanted {
    Exact,
    Any,
}

/// Judges claims, in memory that is kept from operation to operation and never cleared.
#[derive(Default)]
pub struct Plain {
    pairs: Pairs,
    found: usize,
    cells: usize,
}

impl Plain {
    /// How many classes the last claim's parts had in all, before those that are alike were joined: what there was to work out.
    pub fn found(&self) -> usize {
        self.found
    }

    /// How many cells the largest table of these had, a cell for each class and column.
    pub fn cells(&self) -> usize {
        self.cells
    }

    /// As the call answers.
    pub fn judge(&mut self, claim: &[u8], most: u32) -> Answer {
        (self.found, self.cells) = (0, 0);
        let Some((_, part)) = Part::read(claim) else { return Answer::NoClaim };
        if most == 0 {
            return Answer::Many;
        }
        match self.work_out(&part, Wanted::Any, most as usize) {
            Some(table) => shortest::answer(&table),
            None => Answer::Many,
        }
    }

    /// A table of a part, or none where the part does not fit.
    fn work_out(&mut self, part: &Part, wanted: Wanted, most: usize) -> Option<Narrow> {
        match part {
            Part::Not(c) => Some(self.work_out(c, wanted, most)?.complement()),
            Part::And(c, d) => {
                let found = self.conjoin(c, d, most)?;
                Some(self.hand_on(found, wanted))
            }
            Part::Some(x, c) => {
                let part = self.work_out(c, Wanted::Exact, most)?;
                if !part.sets.has(*x) {
                    return Some(part);
                }
                let found = self.quantify(*x, part, most)?;
                Some(self.hand_on(found, wanted))
            }
            atom => {
                let states = atoms::explore(atom);
                self.note(&states.table);
                let exact = self.hand_on(states, Wanted::Exact);
                (exact.table.classes() <= most).then_some(exact)
            }
        }
    }

    /// The pairs of classes of two parts, over the columns of the sets of either. The longer part is worked out first, as the call
    /// does it.
    fn conjoin(&mut self, c: &Part, d: &Part, most: usize) -> Option<Narrow> {
        let (longer, shorter) = if c.size() < d.size() { (d, c) } else { (c, d) };
        let a = self.work_out(longer, Wanted::Exact, most)?;
        let b = self.work_out(shorter, Wanted::Exact, most)?;
        let sets = a.sets.with(b.sets);
        let (a, b) = (a.over(sets), b.over(sets));
        let table = product::product(&a.table, &b.table, most, &mut self.pairs)?;
        self.note(&table);
        Some(Narrow { table, sets })
    }

    /// The sets of classes of a part that are reached whatever set x is, which the part mentions, over the columns of its other sets.
    fn quantify(&mut self, x: u8, part: Narrow, most: usize) -> Option<Narrow> {
        let sets = part.sets;
        let table = project::project(&part.table, sets.place(x), most)?;
        self.note(&table);
        Some(Narrow { table, sets }.over(sets.without(x)))
    }

    /// The table as it is wanted: exact, its classes that are alike joined, or as it is.
    fn hand_on(&mut self, found: Narrow, wanted: Wanted) -> Narrow {
        match wanted {
            Wanted::Exact => Narrow { table: minimize::join(&found.table, &mut self.pairs), sets: found.sets },
            Wanted::Any => found,
        }
    }

    fn note(&mut self, table: &Table) {
        self.found += table.classes();
        self.cells = self.cells.max(table.rows.len());
    }
}
