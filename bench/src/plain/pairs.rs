//! Pairs of classes numbered in the order in which they are met.

/// Words in which pairs of classes are numbered, in the order in which they are met.
#[derive(Default)]
pub(super) struct Pairs {
    lefts: Vec<u32>,
    rights: Vec<u32>,
    index: Vec<u32>,
}

impl Pairs {
    /// Room for `most` pairs out of `left` and `right` classes, none of which has a number yet.
    pub(super) fn begin(&mut self, left: usize, right: usize, most: usize) -> Numbering<'_> {
        if self.lefts.len() < most {
            self.lefts = vec![0; most];
            self.rights = vec![0; most];
        }
        if self.index.len() < left * right {
            self.index = vec![0; left * right];
        }
        Numbering {
            lefts: &mut self.lefts[..most],
            rights: &mut self.rights[..most],
            index: &mut self.index[..left * right],
            right,
            count: 0,
        }
    }
}

/// Pairs that have numbers. What the index holds of a pair counts only if the pair with that number is the one looked for, so that
/// nothing is cleared.
pub(super) struct Numbering<'a> {
    pub(super) lefts: &'a mut [u32],
    pub(super) rights: &'a mut [u32],
    index: &'a mut [u32],
    right: usize,
    pub(super) count: usize,
}

impl Numbering<'_> {
    /// The number of the pair, which gets the next one if it has none; `None` where there is no room for it.
    #[inline]
    pub(super) fn number(&mut self, p: u32, q: u32) -> Option<u32> {
        let slot = &mut self.index[p as usize * self.right + q as usize];
        let i = *slot as usize;
        if i < self.count && self.lefts[i] == p && self.rights[i] == q {
            return Some(i as u32);
        }
        *self.lefts.get_mut(self.count)? = p;
        self.rights[self.count] = q;
        *slot = self.count as u32;
        self.count += 1;
        Some(*slot)
    }
}
