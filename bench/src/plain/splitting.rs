//! Classes that are alike, by splitting: a part that waits splits every other, column by column, into the classes that go to it and those
//! that do not. Of the two pieces the smaller is the new part, and waits in its turn, so that a class is in a part that splits only as
//! often as its part can be halved.
//!
//! New parts get rising numbers and always wait, and an old part waits on if it did; so the parts that wait are those from some number on.

use super::Table;

/// The number of each class's part, the parts numbered in the order of their first classes.
pub(super) fn parts(t: &Table, columns: &[usize]) -> Vec<u32> {
    let mut partition = Partition::by_acceptance(t);
    let comers = Comers::new(t, columns);
    let mut members = Vec::new();
    // of the two first parts the smaller is enough
    let mut splitter = 1;
    while splitter < partition.pieces.len() && partition.pieces.len() < t.classes() {
        // copied, since it may be split itself
        members.clear();
        members.extend_from_slice(partition.members(splitter));
        for column in 0..columns.len() {
            for to in &members {
                comers.of(*to, column).for_each(|q| partition.mark(q));
            }
            partition.cut();
        }
        splitter += 1;
    }
    by_first_class(&partition.part)
}

/// For each class and column the classes that go to it by that column, as linked lists: q + 1 stands for class q, 0 ends a list.
struct Comers {
    heads: Vec<u32>,
    links: Vec<u32>,
    width: usize,
}

impl Comers {
    fn new(t: &Table, columns: &[usize]) -> Comers {
        let width = columns.len();
        let mut heads = vec![0; t.classes() * width];
        let mut links = Vec::with_capacity(t.classes() * width);
        for q in 0..t.classes() as u32 {
            let row = t.row(q);
            for (j, column) in columns.iter().enumerate() {
                let head = &mut heads[row[*column] as usize * width + j];
                links.push(*head);
                *head = q + 1;
            }
        }
        Comers { heads, links, width }
    }

    /// The classes that go to a class by a column.
    fn of(&self, to: u32, column: usize) -> impl Iterator<Item = u32> + '_ {
        let entry = |entry: u32| entry.checked_sub(1);
        let first = entry(self.heads[to as usize * self.width + column]);
        std::iter::successors(first, move |q| entry(self.links[*q as usize * self.width + column]))
    }
}

/// The places of a part's classes, in the order of all: those before `cut` are marked.
struct Piece {
    begin: u32,
    cut: u32,
    end: u32,
}

/// All classes in an order in which those of a part stand together.
struct Partition {
    order: Vec<u32>,
    place: Vec<u32>,
    part: Vec<u32>,
    pieces: Vec<Piece>,
    /// The parts that have marked classes.
    touched: Vec<u32>,
}

impl Partition {
    /// One part or two: the classes that accept and those that do not.
    fn by_acceptance(t: &Table) -> Partition {
        let all: Vec<u32> = (0..t.classes() as u32).collect();
        let mut partition = Partition {
            order: all.clone(),
            place: all,
            part: vec![0; t.classes()],
            pieces: vec![Piece { begin: 0, cut: 0, end: t.classes() as u32 }],
            touched: Vec::new(),
        };
        for q in (0..t.classes() as u32).filter(|q| t.accept[*q as usize]) {
            partition.mark(q);
        }
        partition.cut();
        partition
    }

    fn members(&self, part: usize) -> &[u32] {
        let piece = &self.pieces[part];
        &self.order[piece.begin as usize..piece.end as usize]
    }

    /// Marks a class, if it is not yet: it changes places with the first of its part that is not.
    fn mark(&mut self, q: u32) {
        let part = self.part[q as usize];
        let piece = &mut self.pieces[part as usize];
        let (at, cut) = (self.place[q as usize], piece.cut);
        if at < cut {
            return;
        }
        if cut == piece.begin {
            self.touched.push(part);
        }
        piece.cut += 1;
        let other = self.order[cut as usize];
        self.order.swap(at as usize, cut as usize);
        self.place[q as usize] = cut;
        self.place[other as usize] = at;
    }

    /// Cuts each part with marked classes and others into two; the smaller gets the next number. Then no class is marked.
    fn cut(&mut self) {
        for part in self.touched.drain(..) {
            let piece = &mut self.pieces[part as usize];
            let Piece { begin, cut, end } = *piece;
            if cut == end {
                piece.cut = begin;
                continue;
            }
            let (new, old) = if cut - begin <= end - cut { (begin..cut, cut..end) } else { (cut..end, begin..cut) };
            *piece = Piece { begin: old.start, cut: old.start, end: old.end };
            let number = self.pieces.len() as u32;
            for q in &self.order[new.start as usize..new.end as usize] {
                self.part[*q as usize] = number;
            }
            self.pieces.push(Piece { begin: new.start, cut: new.start, end: new.end });
        }
    }
}

/// The same parts, numbered in the order of their first classes.
fn by_first_class(parts: &[u32]) -> Vec<u32> {
    let mut numbers = vec![None; parts.len()];
    let mut count = 0;
    let number = |part: &u32| {
        *numbers[*part as usize].get_or_insert_with(|| {
            count += 1;
            count - 1
        })
    };
    parts.iter().map(number).collect()
}
