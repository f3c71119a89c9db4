//! Some of a claim's sets, and columns of these alone: the bits of those sets moved together, and back.

/// Some of at most twelve sets, as bits.
#[derive(Clone, Copy, Debug, PartialEq, Eq)]
pub(super) struct Selection(pub(super) u32);

impl Selection {
    /// The sets x and y, which may be one.
    pub(super) fn pair(x: u8, y: u8) -> Selection {
        Selection(1 << x | 1 << y)
    }

    /// Its sets and those of the other.
    pub(super) fn with(self, other: Selection) -> Selection {
        Selection(self.0 | other.0)
    }

    /// Its sets but x.
    pub(super) fn without(self, x: u8) -> Selection {
        Selection(self.0 & !(1 << x))
    }

    pub(super) fn has(self, x: u8) -> bool {
        self.0 >> x & 1 == 1
    }

    /// How many columns of these sets there are.
    pub(super) fn width(self) -> usize {
        1 << self.0.count_ones()
    }

    /// Which of its own sets x is.
    pub(super) fn place(self, x: u8) -> u8 {
        (self.0 & ((1 << x) - 1)).count_ones() as u8
    }

    /// The column of its sets alone.
    pub(super) fn narrow(self, column: u32) -> u32 {
        self.sets().enumerate().fold(0, |narrow, (i, x)| narrow | (column >> x & 1) << i)
    }

    /// The least column of all sets that has this column of its own: no other set has the place.
    pub(super) fn spread(self, narrow: u32) -> u32 {
        self.sets().enumerate().fold(0, |column, (i, x)| column | (narrow >> i & 1) << x)
    }

    /// The numbers of its sets, rising.
    fn sets(self) -> impl Iterator<Item = u32> {
        let rest = |sets: &u32| Some(*sets & (*sets - 1)).filter(|rest| *rest != 0);
        let first = Some(self.0).filter(|sets| *sets != 0);
        std::iter::successors(first, rest).map(u32::trailing_zeros)
    }
}

#[cfg(test)]
mod tests {
    use super::*;

    #[test]
    fn columns_of_some_sets() {
        let sets = Selection::pair(1, 4).with(Selection::pair(9, 9));
        assert_eq!((sets.width(), sets.place(1), sets.place(4), sets.place(9)), (8, 0, 1, 2));
        assert_eq!((sets.spread(0b101), sets.narrow(0b10_0001_1111)), (0b10_0000_0010, 0b111));
        for narrow in 0..8 {
            assert_eq!(sets.narrow(sets.spread(narrow)), narrow);
        }
        assert_eq!(sets.without(4), Selection::pair(1, 9));
        assert_eq!(sets.without(4).without(9).without(1).width(), 1);
        assert_eq!(Selection(0).narrow(0xfff), 0);
    }
}
