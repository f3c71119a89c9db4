//! Classes that are alike, by rounds: parts by acceptance, split by where each column leads, until a round splits none.

use super::Table;
use super::pairs::{Numbering, Pairs};

/// The number of each class's part, the parts numbered in the order of their first classes.
pub(super) fn parts(t: &Table, columns: &[usize], pairs: &mut Pairs) -> Vec<u32> {
    let m = t.classes();
    let mut parts: Vec<u32> = t.accept.iter().map(|accepts| u32::from(*accepts != t.accept[0])).collect();
    let mut split = parts.clone();
    let mut pairs = pairs.begin(m, m, m);
    let mut before = if parts.contains(&1) { 2 } else { 1 };
    loop {
        for column in columns {
            renumber(t, *column, &parts, &mut split, &mut pairs);
            if pairs.count == m {
                return split;
            }
        }
        if pairs.count == before {
            return split;
        }
        before = pairs.count;
        parts.copy_from_slice(&split);
    }
}

/// Splits the parts by one column: the new number of a class is that of its pair, its part and the part to which the column leads.
fn renumber(t: &Table, column: usize, parts: &[u32], split: &mut [u32], pairs: &mut Numbering) {
    pairs.count = 0;
    for (part, to) in split.iter_mut().zip(t.column(column)) {
        *part = pairs.number(*part, parts[to as usize]).expect("there are no more parts than classes");
    }
}
