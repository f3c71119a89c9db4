//! The product of two tables: a class for each pair of classes that is reached.

use super::Table;
use super::pairs::Pairs;

/// `None` where there are more than `most` pairs.
pub(super) fn product(a: &Table, b: &Table, most: usize, pairs: &mut Pairs) -> Option<Table> {
    let mut pairs = pairs.begin(a.classes(), b.classes(), most);
    pairs.number(0, 0);
    let mut rows = Vec::new();
    let mut i = 0;
    while i < pairs.count {
        let (left, right) = (a.row(pairs.lefts[i]), b.row(pairs.rights[i]));
        rows.reserve(a.width);
        for (p, q) in left.iter().zip(right) {
            rows.push(pairs.number(*p, *q)?);
        }
        i += 1;
    }
    let both = |(p, q): (&u32, &u32)| a.accept[*p as usize] && b.accept[*q as usize];
    let accept = pairs.lefts.iter().zip(&*pairs.rights).take(pairs.count).map(both).collect();
    Some(Table { rows, accept, width: a.width })
}
