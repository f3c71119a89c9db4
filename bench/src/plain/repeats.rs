//! Columns that repeat others: what a column tells apart that leads every class where an earlier one does, the earlier one tells.

use super::Table;

/// The columns that are not repeated, rising. A column is, if for some set of it the column without that set leads every class alike.
pub(super) fn told_apart(t: &Table) -> Vec<usize> {
    let repeated = |column: usize| {
        let sets = (0..usize::BITS).map(|x| 1 << x).take_while(|bit| *bit <= column);
        sets.filter(|bit| column & bit != 0).any(|bit| alike(t, column, column ^ bit))
    };
    (0..t.width).filter(|column| !repeated(*column)).collect()
}

fn alike(t: &Table, a: usize, b: usize) -> bool {
    t.rows.chunks_exact(t.width).all(|row| row[a] == row[b])
}
