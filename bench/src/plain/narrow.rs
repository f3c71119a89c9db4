//! Tables over the columns of some sets.

use super::Table;
use super::selection::Selection;

/// A table over the columns of these sets alone: a column of more leads where its bits of these sets do.
pub(super) struct Narrow {
    pub(super) table: Table,
    pub(super) sets: Selection,
}

impl Narrow {
    /// The table of what the claim denies.
    pub(super) fn complement(mut self) -> Narrow {
        self.table.accept.iter_mut().for_each(|accepts| *accepts = !*accepts);
        self
    }

    /// The same over the columns of other sets: each leads where the column does that agrees with it in the sets of both, and has no
    /// other set.
    pub(super) fn over(self, sets: Selection) -> Narrow {
        if sets == self.sets {
            return self;
        }
        let map: Vec<u32> = (0..sets.width() as u32).map(|column| self.sets.narrow(sets.spread(column))).collect();
        let mut rows = Vec::with_capacity(self.table.classes() * map.len());
        for row in self.table.rows.chunks_exact(self.table.width) {
            rows.extend(map.iter().map(|column| row[*column as usize]));
        }
        Narrow { table: Table { rows, accept: self.table.accept, width: map.len() }, sets }
    }
}

#[cfg(test)]
mod tests {
    use super::*;

    #[test]
    fn over_more_sets_and_over_fewer() {
        let table = Table { rows: vec![0, 1, 1, 1], accept: vec![true, false], width: 2 };
        let one = Narrow { table, sets: Selection(0b010) };
        let three = one.over(Selection(0b111));
        assert_eq!(three.table.rows, [0, 0, 1, 1, 0, 0, 1, 1, 1, 1, 1, 1, 1, 1, 1, 1]);
        assert_eq!((three.table.width, &three.table.accept[..]), (8, &[true, false][..]));
        let two = three.over(Selection(0b110));
        assert_eq!((two.table.width, &two.table.rows[..]), (4, &[0, 1, 0, 1, 1, 1, 1, 1][..]));
        let other = two.over(Selection(0b100));
        assert_eq!((other.table.width, &other.table.rows[..]), (2, &[0, 0, 1, 1][..]));
    }
}
