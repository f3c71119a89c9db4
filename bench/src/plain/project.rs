//! The table of a claim under `some`: the sets of live classes that are reached whatever set x is.

use super::Table;

/// `None` where there are more than `most` sets.
pub(super) fn project(part: &Table, x: u8, most: usize) -> Option<Table> {
    let dead = dead(part);
    let completed = completed(part, x);
    let mut sets = Sets::new(part.classes(), most);
    let start = sets.candidate();
    if dead != 0 {
        insert(start, 0);
    }
    sets.number(most);
    let bit = 1 << x;
    let mut rows = Vec::new();
    let mut i = 0;
    while i < sets.count {
        for column in 0..part.width {
            if column & bit != 0 {
                // leads where it leads without x
                rows.push(rows[rows.len() - bit]);
                continue;
            }
            sets.follow(part, i, column, column | bit, dead);
            rows.push(sets.number(most)?);
        }
        i += 1;
    }
    let accept = (0..sets.count).map(|i| sets.members(i).any(|q| completed[q])).collect();
    Some(Table { rows, accept, width: part.width })
}

/// The class from which nothing is accepted: every column leads back to it, and it does not accept. Where there is none, a number that no
/// class has.
fn dead(t: &Table) -> u32 {
    let classes = t.classes() as u32;
    let is_dead = |q: &u32| !t.accept[*q as usize] && t.row(*q).iter().all(|to| to == q);
    (0..classes).find(is_dead).unwrap_or(classes)
}

/// Which classes accept once columns follow in which at most set x has places: from the accepting ones back, by lists of the classes
/// that go to each class without and with x.
fn completed(t: &Table, x: u8) -> Vec<bool> {
    let comers = [comers(t, 0), comers(t, 1 << x)];
    let mut marks = t.accept.clone();
    let mut queue: Vec<u32> = (0..t.classes() as u32).filter(|q| marks[*q as usize]).collect();
    let mut i = 0;
    while i < queue.len() {
        for (heads, links) in &comers {
            let mut entry = heads[queue[i] as usize];
            while entry > 0 {
                let q = entry as usize - 1;
                if !marks[q] {
                    marks[q] = true;
                    queue.push(q as u32);
                }
                entry = links[q];
            }
        }
        i += 1;
    }
    marks
}

/// For each class those that go to it by a column, as linked lists: q + 1 stands for class q, 0 ends a list.
fn comers(t: &Table, column: usize) -> (Vec<u32>, Vec<u32>) {
    let mut heads = vec![0; t.classes()];
    let mut links = vec![0; t.classes()];
    for (q, link) in links.iter_mut().enumerate() {
        let head = &mut heads[t.next(q as u32, column) as usize];
        *link = *head;
        *head = q as u32 + 1;
    }
    (heads, links)
}

/// Sets of classes as rows of bits, one behind the other, and a candidate behind them; chained by a hash.
struct Sets {
    words: usize,
    rows: Vec<u32>,
    count: usize,
    heads: Vec<u32>,
    links: Vec<u32>,
}

impl Sets {
    fn new(classes: usize, most: usize) -> Sets {
        let words = classes.div_ceil(32);
        Sets { words, rows: Vec::new(), count: 0, heads: vec![0; most + 1], links: Vec::new() }
    }

    /// The row behind the sets found, empty.
    fn candidate(&mut self) -> &mut [u32] {
        self.rows.truncate(self.count * self.words);
        self.rows.resize((self.count + 1) * self.words, 0);
        &mut self.rows[self.count * self.words..]
    }

    /// The classes of a set.
    fn members(&self, i: usize) -> impl Iterator<Item = usize> + '_ {
        bits(&self.rows[i * self.words..][..self.words])
    }

    /// Makes the candidate the live classes to which two columns lead from those of set i.
    fn follow(&mut self, t: &Table, i: usize, a: usize, b: usize, dead: u32) {
        self.candidate();
        let (found, candidate) = self.rows.split_at_mut(self.count * self.words);
        for q in bits(&found[i * self.words..][..self.words]) {
            let row = t.row(q as u32);
            for to in [row[a], row[b]] {
                if to != dead {
                    insert(candidate, to as usize);
                }
            }
        }
    }

    /// The number of the candidate, which becomes the next set if it is none of those found; `None` where it is one too many.
    fn number(&mut self, most: usize) -> Option<u32> {
        let (found, candidate) = self.rows.split_at(self.count * self.words);
        let bucket = hash(candidate) as usize % self.heads.len();
        let mut entry = self.heads[bucket];
        while entry > 0 {
            let j = entry as usize - 1;
            if found[j * self.words..][..self.words] == *candidate {
                return Some(j as u32);
            }
            entry = self.links[j];
        }
        if self.count == most {
            return None;
        }
        self.links.push(self.heads[bucket]);
        self.heads[bucket] = self.count as u32 + 1;
        self.count += 1;
        Some(self.count as u32 - 1)
    }
}

fn insert(row: &mut [u32], q: usize) {
    row[q / 32] |= 1 << (q % 32);
}

/// The numbers of the bits that are set.
fn bits(row: &[u32]) -> impl Iterator<Item = usize> + '_ {
    row.iter().enumerate().flat_map(|(z, word)| {
        let mut left = *word;
        std::iter::from_fn(move || {
            let bit = left.trailing_zeros() as usize;
            (left != 0).then(|| {
                left &= left - 1;
                z * 32 + bit
            })
        })
    })
}

fn hash(row: &[u32]) -> u32 {
    row.iter().fold(1, |h: u32, word| {
        let z = u64::from(h) * 0x9e37_79b1 + u64::from(*word);
        (z >> 32) as u32 ^ z as u32
    })
}
