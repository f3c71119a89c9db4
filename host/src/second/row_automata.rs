//! Row claims decided for rows of every length, by automata that read a row from its first place to its last.
//!
//! The row ends where the word ends, so nothing stands behind it: `some` leaves one set out of the columns and follows all choices
//! of it at once, and a row is accepted where one of them is. `last x` is an automaton of its own, which accepts where exactly the
//! column read last has x, and the empty row.

use std::collections::{BTreeSet, HashMap};
use std::hash::Hash;

use crate::row_part::RowPart;

/// States are numbered in the order of the first rows that lead to them; the first one is the start.
#[derive(Clone, Debug)]
pub struct Automaton {
    /// Where each column leads, for each state.
    steps: Vec<Vec<usize>>,
    accepts: Vec<bool>,
}

/// No more states are made of a part.
const MOST: usize = 20_000;

/// What is known of a set that shall have one place: none so far, the place just read, a place before it.
#[derive(Clone, Copy, PartialEq, Eq, Hash)]
pub(super) enum Seen {
    Nowhere,
    Here,
    Earlier,
}

impl Seen {
    /// `None` where the set has two places.
    pub(super) fn step(self, has: bool) -> Option<Seen> {
        match (self, has) {
            (Seen::Nowhere, false) => Some(Seen::Nowhere),
            (Seen::Nowhere, true) => Some(Seen::Here),
            (_, false) => Some(Seen::Earlier),
            (_, true) => None,
        }
    }
}

/// Whether a column has set x.
pub(super) fn has(column: usize, x: u8) -> bool {
    column >> x & 1 == 1
}

impl Automaton {
    /// The automaton of a claim about so many sets; `None` where a part takes more than [`MOST`] states.
    pub fn of(claim: &RowPart, sets: u8) -> Option<Automaton> {
        let columns = 1 << sets;
        match claim {
            RowPart::Last(x) => Automaton::of_last(*x, columns),
            RowPart::Not(c) => Some(Automaton::of(c, sets)?.opposite()),
            RowPart::And(c, d) => Automaton::of(c, sets)?.both(&Automaton::of(d, sets)?),
            RowPart::Some(x, c) => Automaton::of(c, sets)?.some(*x),
            _ => Automaton::of_sign(claim, columns),
        }
        .map(Automaton::smallest)
    }

    /// Accepts what this one does not.
    pub(super) fn opposite(self) -> Automaton {
        let accepts = self.accepts.into_iter().map(|accepts| !accepts).collect();
        Automaton { steps: self.steps, accepts }
    }

    /// Accepts what this one and another do, which reads the same columns.
    pub(super) fn both(&self, other: &Automaton) -> Option<Automaton> {
        let step = |(p, q): &(usize, usize), column| (self.steps[*p][column], other.steps[*q][column]);
        Automaton::explore((0, 0), self.columns(), step, |(p, q)| self.accepts[*p] && other.accepts[*q])
    }

    /// Accepts a row where this one does with some choice of the places of x.
    pub(super) fn some(&self, x: u8) -> Option<Automaton> {
        let step = |states: &BTreeSet<usize>, column: usize| {
            let choices = [column & !(1 << x), column | 1 << x];
            states.iter().flat_map(|state| choices.map(|choice| self.steps[*state][choice])).collect()
        };
        Automaton::explore(BTreeSet::from([0]), self.columns(), step, |states| {
            states.iter().any(|state| self.accepts[*state])
        })
    }

    fn columns(&self) -> usize {
        self.steps[0].len()
    }

    /// Of the other signs without parts a state is what was seen of their sets, `None` or `false` once it can hold no more.
    pub(super) fn of_sign(sign: &RowPart, columns: usize) -> Option<Automaton> {
        match *sign {
            RowPart::Within(x, y) => {
                let step = |within: &bool, column| *within && (has(column, y) || !has(column, x));
                Automaton::explore(true, columns, step, |within| *within)
            }
            RowPart::Single(x) => {
                let step = |seen: &Option<Seen>, column| seen.and_then(|seen| seen.step(has(column, x)));
                Automaton::explore(Some(Seen::Nowhere), columns, step, |seen| {
                    matches!(seen, Some(Seen::Here | Seen::Earlier))
                })
            }
            RowPart::Next(x, y) => Automaton::of_two(x, y, columns, |x_seen| x_seen == Seen::Here),
            RowPart::Before(x, y) => Automaton::of_two(x, y, columns, |x_seen| x_seen != Seen::Nowhere),
            RowPart::Multiple(modulus, rest, x) => {
                let step = |count: &u8, column| (count + u8::from(has(column, x))) % modulus;
                Automaton::explore(0, columns, step, |count| *count == rest)
            }
            _ => unreachable!("a sign with parts, or last"),
        }
    }

    /// Sets x and y have one place each, and when y's is read, of x so much was seen before as `fits` asks.
    fn of_two(x: u8, y: u8, columns: usize, fits: fn(Seen) -> bool) -> Option<Automaton> {
        let step = |seen: &Option<(Seen, Seen)>, column| {
            let (x_seen, y_seen) = (*seen)?;
            if has(column, y) && !fits(x_seen) {
                return None;
            }
            Some((x_seen.step(has(column, x))?, y_seen.step(has(column, y))?))
        };
        // that y's place was read says that x's was, before it
        Automaton::explore(Some((Seen::Nowhere, Seen::Nowhere)), columns, step, |seen| {
            seen.is_some_and(|(_, y_seen)| y_seen != Seen::Nowhere)
        })
    }

    fn of_last(x: u8, columns: usize) -> Option<Automaton> {
        /// No column was read; none with x; the last one has x, and no other; one before the last has.
        #[derive(Clone, Copy, PartialEq, Eq, Hash)]
        enum Read {
            Nothing,
            Without,
            AtLast,
            Before,
        }
        let step = |read: &Read, column| match (read, has(column, x)) {
            (Read::Nothing | Read::Without, true) => Read::AtLast,
            (Read::Nothing | Read::Without, false) => Read::Without,
            (Read::AtLast | Read::Before, _) => Read::Before,
        };
        Automaton::explore(Read::Nothing, columns, step, |read| matches!(read, Read::Nothing | Read::AtLast))
    }

    /// All things that rows lead to from `start`, as states.
    pub(super) fn explore<T: Clone + Eq + Hash>(
        start: T,
        columns: usize,
        step: impl Fn(&T, usize) -> T,
        accepts: impl Fn(&T) -> bool,
    ) -> Option<Automaton> {
        let mut numbers = HashMap::from([(start.clone(), 0)]);
        let mut things = vec![start];
        let mut steps = Vec::new();
        while steps.len() < things.len() {
            let thing = things[steps.len()].clone();
            let row = (0..columns).map(|column| {
                let next = step(&thing, column);
                *numbers.entry(next).or_insert_with_key(|next| {
                    things.push(next.clone());
                    things.len() - 1
                })
            });
            steps.push(row.collect());
            if things.len() > MOST {
                return None;
            }
        }
        Some(Automaton { steps, accepts: things.iter().map(accepts).collect() })
    }

    /// The same with states that no row tells apart made one: parts of the states are cut, by acceptance and then by where the
    /// columns lead, until nothing more is cut.
    pub(super) fn smallest(self) -> Automaton {
        let mut parts: Vec<usize> = self.accepts.iter().map(|accepts| usize::from(*accepts)).collect();
        let mut count = 0;
        loop {
            let mut numbers = HashMap::new();
            let cut: Vec<usize> = (0..parts.len())
                .map(|state| {
                    let leads: Vec<usize> = self.steps[state].iter().map(|next| parts[*next]).collect();
                    let number = numbers.len();
                    *numbers.entry((parts[state], leads)).or_insert(number)
                })
                .collect();
            let found = numbers.len();
            parts = cut;
            if found == count {
                break;
            }
            count = found;
        }
        // a part's number is that of its first state's turn, so the start stays 0
        let mut steps = vec![Vec::new(); count];
        let mut accepts = vec![false; count];
        for (state, part) in parts.iter().enumerate() {
            steps[*part] = self.steps[state].iter().map(|next| parts[*next]).collect();
            accepts[*part] = self.accepts[state];
        }
        Automaton { steps, accepts }
    }

    /// How many states there are.
    pub fn states(&self) -> usize {
        self.accepts.len()
    }

    /// Whether it accepts a row.
    pub fn accepts(&self, row: &[u32]) -> bool {
        self.accepts[row.iter().fold(0, |state, column| self.steps[state][*column as usize])]
    }

    /// The first row that it accepts (`wanted`) or does not, in the order of rows; `None` where there is no such row, however long.
    pub fn first(&self, wanted: bool) -> Option<Vec<u32>> {
        let mut rows: Vec<Option<Vec<u32>>> = vec![None; self.states()];
        rows[0] = Some(Vec::new());
        let mut queue = std::collections::VecDeque::from([0]);
        // each state is met first by its first row: rows of one length stand in the queue in their order
        while let Some(state) = queue.pop_front() {
            let row = rows[state].clone().expect("it was met");
            if self.accepts[state] == wanted {
                return Some(row);
            }
            for (column, next) in self.steps[state].iter().enumerate() {
                if rows[*next].is_none() {
                    rows[*next] = Some([&row[..], &[column as u32]].concat());
                    queue.push_back(*next);
                }
            }
        }
        None
    }
}

#[cfg(test)]
mod tests {
    use super::*;
    use crate::row_part::{and, before, last, multiple, next, not, single, some, within};

    fn firsts(claim: RowPart, sets: u8) -> (Option<Vec<u32>>, Option<Vec<u32>>, usize) {
        let automaton = Automaton::of(&claim, sets).unwrap();
        (automaton.first(true), automaton.first(false), automaton.states())
    }

    #[test]
    fn claims_without_parts() {
        assert_eq!(firsts(within(0, 1), 2), (Some(vec![]), Some(vec![1]), 2));
        assert_eq!(firsts(single(0), 1), (Some(vec![1]), Some(vec![]), 3));
        assert_eq!(firsts(next(0, 1), 2), (Some(vec![1, 2]), Some(vec![]), 4));
        assert_eq!(firsts(before(1, 0), 2), (Some(vec![2, 1]), Some(vec![]), 4));
        assert_eq!(firsts(next(0, 0), 1), (None, Some(vec![]), 1));
        assert_eq!(firsts(multiple(3, 2, 0), 1), (Some(vec![1, 1]), Some(vec![]), 3));
    }

    #[test]
    fn the_last_place() {
        // of the empty row no set has it
        assert_eq!(firsts(last(0), 1), (Some(vec![]), Some(vec![0]), 4));
        assert_eq!(firsts(and(last(0), single(0)), 1), (Some(vec![1]), Some(vec![]), 3));
        // each row has a last place, if it has one at all
        assert_eq!(firsts(some(0, last(0)), 1), (Some(vec![]), None, 1));
        // no place is behind it
        assert_eq!(firsts(and(last(0), some(1, before(0, 1))), 2).0, None);
        // every second place has set 0, and the last one: an odd number of places
        let second = not(some(1, and(single(1), and(within(1, 0), some(2, and(next(1, 2), within(2, 0)))))));
        let other = not(some(1, and(single(1), and(not(within(1, 0)), not(some(2, and(next(1, 2), within(2, 0))))))));
        let at_end = some(1, and(last(1), within(1, 0)));
        assert_eq!(firsts(and(and(second, other), at_end), 3).0, Some(vec![]));
    }

    #[test]
    fn no_set_reaches_beyond_the_end() {
        // some place is behind set 0's one place: not of a row that ends there
        assert_eq!(firsts(some(1, next(0, 1)), 2).0, Some(vec![1, 0]));
        // there is no largest set, said of rows: some set has every set within it
        let largest = some(1, not(some(0, not(within(0, 1)))));
        assert_eq!(firsts(largest, 2), (Some(vec![]), None, 1));
    }
}
