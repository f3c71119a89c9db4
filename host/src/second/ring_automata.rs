//! Ring claims decided for rings of every length, by automata that read a ring from its first place to its last.
//!
//! Of a sign they are those of rows, but for `next`: its automaton remembers whether y has the first place, and where the ring ends
//! with the place of x, that is the next one. So nothing here is said by other signs, as the proved code says it.

use super::row_automata::{Automaton, Seen, has};
use crate::ring_part::RingPart;
use crate::row_part::RowPart;

/// What was read of x and y: which places they have, whether y's is the first of the ring, whether it came just behind that of x.
#[derive(Clone, Copy, PartialEq, Eq, Hash)]
struct Read {
    x: Seen,
    y: Seen,
    y_is_first: bool,
    y_is_behind: bool,
}

/// No column was read, so many were, or x or y has a second place.
#[derive(Clone, Copy, PartialEq, Eq, Hash)]
enum State {
    Start,
    Going(Read),
    Dead,
}

impl State {
    fn step(self, x: bool, y: bool) -> State {
        let read = match self {
            State::Start => Read { x: Seen::Nowhere, y: Seen::Nowhere, y_is_first: y, y_is_behind: false },
            State::Going(read) => Read { y_is_behind: read.y_is_behind || (y && read.x == Seen::Here), ..read },
            State::Dead => return State::Dead,
        };
        match (read.x.step(x), read.y.step(y)) {
            (Some(x), Some(y)) => State::Going(Read { x, y, ..read }),
            _ => State::Dead,
        }
    }

    /// Whether the ring may end here.
    fn ends(self) -> bool {
        match self {
            State::Going(read) => read.y_is_behind || (read.y_is_first && read.x == Seen::Here),
            State::Start | State::Dead => false,
        }
    }
}

/// The automaton of a claim about so many sets; `None` where a part takes too many states.
pub fn of(claim: &RingPart, sets: u8) -> Option<Automaton> {
    let columns = 1 << sets;
    match claim {
        RingPart::Next(x, y) => {
            let step = |state: &State, column| state.step(has(column, *x), has(column, *y));
            Automaton::explore(State::Start, columns, step, |state| state.ends())
        }
        RingPart::Not(c) => Some(of(c, sets)?.opposite()),
        RingPart::And(c, d) => of(c, sets)?.both(&of(d, sets)?),
        RingPart::Some(x, c) => of(c, sets)?.some(*x),
        RingPart::Within(..) | RingPart::Single(_) | RingPart::Multiple(..) => {
            Automaton::of_sign(&RowPart::from(claim), columns)
        }
    }
    .map(Automaton::smallest)
}

#[cfg(test)]
mod tests {
    use super::*;
    use crate::ring_part::{and, next, not, single, some, within};

    fn firsts(claim: RingPart, sets: u8) -> (Option<Vec<u32>>, Option<Vec<u32>>) {
        let automaton = of(&claim, sets).unwrap();
        (automaton.first(true), automaton.first(false))
    }

    #[test]
    fn the_next_place() {
        // the one place of a ring of one is next to itself, and of two places each is next to the other
        assert_eq!(firsts(next(0, 1), 2), (Some(vec![3]), Some(vec![])));
        assert_eq!(firsts(and(next(0, 1), not(within(0, 1))), 2).0, Some(vec![1, 2]));
        assert_eq!(firsts(and(next(0, 1), not(next(1, 0))), 2).0, Some(vec![0, 1, 2]));
        assert_eq!(firsts(next(0, 0), 1), (Some(vec![1]), Some(vec![])));
        let automaton = of(&next(0, 1), 2).unwrap();
        assert!(automaton.accepts(&[2, 0, 1]) && automaton.accepts(&[0, 1, 2]) && !automaton.accepts(&[1, 0, 2]));
    }

    #[test]
    fn every_place_has_one() {
        assert_eq!(firsts(not(some(0, and(single(0), not(some(1, next(0, 1)))))), 2), (Some(vec![]), None));
        assert_eq!(firsts(some(0, next(0, 0)), 1), (Some(vec![0]), Some(vec![])));
    }
}
