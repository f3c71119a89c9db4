//! Formulas about a row or a ring, decided on one of them straight from what they say (docs/CLAIMS.md, behind `rows;` and `rings;`):
//! every place is tried for `ex1` and `all1`, and every set of places for `ex2` and `all2`. No claim and no automaton is made.

#![allow(dead_code)] // each search takes a part of it

mod read;
mod tokens;

/// A place of a row is a number, which may be behind the row's end. A place of a ring is a number below how many it has.
#[derive(Debug)]
pub enum Place {
    Number(usize),
    /// That of a quantifier: the number of quantifiers of places around it.
    Named(usize),
    Last,
    Further(Box<Place>, usize),
    Before(Box<Place>, usize),
    Min(Box<Set>),
    Max(Box<Set>),
}

/// A set of places.
#[derive(Debug)]
pub enum Set {
    Empty,
    /// A bit, the row or the ring, or that of a quantifier: the bits first, then the row or the ring, then as many as there are
    /// quantifiers of sets around it.
    Named(usize),
    Of(Vec<Place>),
    Union(Box<Set>, Box<Set>),
    Inter(Box<Set>, Box<Set>),
    Without(Box<Set>, Box<Set>),
}

/// What is asked of two places.
#[derive(Clone, Copy, Debug)]
pub enum Order {
    Equal,
    Less,
    AtMost,
}

#[derive(Clone, Copy, Debug)]
pub enum Quantifier {
    Some,
    Every,
}

#[derive(Debug)]
pub enum Formula {
    Always(bool),
    Not(Box<Formula>),
    And(Box<Formula>, Box<Formula>),
    Or(Box<Formula>, Box<Formula>),
    Same(Box<Formula>, Box<Formula>),
    In(Place, Set),
    Places(Order, Place, Place),
    SameSet(Set, Set),
    Within(Set, Set),
    /// The number of places of the set is a multiple of the first number, and the second besides.
    Counts(Set, usize, usize),
    OfPlaces(Quantifier, Box<Formula>),
    OfSets(Quantifier, Box<Formula>),
}

/// A row or a ring, with the places and sets that its names stand for. Bit p of a set says whether place p is in it.
struct Row {
    length: usize,
    ring: bool,
    places: Vec<usize>,
    sets: Vec<u64>,
}

/// How many places a set may have: those below 64.
const MOST_PLACES: usize = 64;

fn single(place: usize) -> u64 {
    assert!(place < MOST_PLACES, "place {place} is none of the first {MOST_PLACES}");
    1 << place
}

impl Place {
    fn on(&self, row: &Row) -> usize {
        match self {
            Place::Number(place) => *place,
            Place::Named(name) => row.places[*name],
            Place::Last => row.length.saturating_sub(1),
            Place::Further(place, more) if row.ring => (place.on(row) + more) % row.length,
            Place::Further(place, more) => place.on(row) + more,
            Place::Before(place, less) if row.ring => (place.on(row) + row.length - less % row.length) % row.length,
            Place::Before(place, less) => place.on(row).saturating_sub(*less),
            Place::Min(set) => match set.on(row) {
                0 => 0,
                set => set.trailing_zeros() as usize,
            },
            Place::Max(set) => match set.on(row) {
                0 => 0,
                set => set.ilog2() as usize,
            },
        }
    }
}

impl Set {
    fn on(&self, row: &Row) -> u64 {
        match self {
            Set::Empty => 0,
            Set::Named(name) => row.sets[*name],
            Set::Of(places) => places.iter().fold(0, |set, place| set | single(place.on(row))),
            Set::Union(set, other) => set.on(row) | other.on(row),
            Set::Inter(set, other) => set.on(row) & other.on(row),
            Set::Without(set, other) => set.on(row) & !other.on(row),
        }
    }
}

impl Order {
    fn holds(self, place: usize, other: usize) -> bool {
        match self {
            Order::Equal => place == other,
            Order::Less => place < other,
            Order::AtMost => place <= other,
        }
    }
}

impl Quantifier {
    /// Whether it is so of one of the things, or of each.
    fn holds<T>(self, mut things: impl Iterator<Item = T>, is_so: impl FnMut(T) -> bool) -> bool {
        match self {
            Quantifier::Some => things.any(is_so),
            Quantifier::Every => things.all(is_so),
        }
    }
}

impl Formula {
    /// Whether the formula holds of a row, or of a ring, of `bits` bits; bit j of a module is whether it has bit j of the rule.
    pub fn holds(&self, bits: usize, ring: bool, modules: &[usize]) -> bool {
        let length = modules.len();
        assert!(length < MOST_PLACES);
        let has =
            |bit: usize| (0..length).filter(|at| modules[*at] >> bit & 1 == 1).fold(0, |set, at| set | single(at));
        let sets = (0..bits).map(has).chain([single(length) - 1]).collect();
        self.on(&mut Row { length, ring, places: Vec::new(), sets })
    }

    fn on(&self, row: &mut Row) -> bool {
        match self {
            Formula::Always(so) => *so,
            Formula::Not(formula) => !formula.on(row),
            Formula::And(formula, other) => formula.on(row) && other.on(row),
            Formula::Or(formula, other) => formula.on(row) || other.on(row),
            Formula::Same(formula, other) => formula.on(row) == other.on(row),
            Formula::In(place, set) => {
                let place = place.on(row);
                place < MOST_PLACES && set.on(row) & single(place) != 0
            }
            Formula::Places(order, place, other) => order.holds(place.on(row), other.on(row)),
            Formula::SameSet(set, other) => set.on(row) == other.on(row),
            Formula::Within(set, other) => set.on(row) & !other.on(row) == 0,
            Formula::Counts(set, modulus, rest) => set.on(row).count_ones() as usize % modulus == *rest,
            Formula::OfPlaces(quantifier, formula) => quantifier.holds(0..row.length, |place| {
                row.places.push(place);
                let holds = formula.on(row);
                row.places.pop();
                holds
            }),
            Formula::OfSets(quantifier, formula) => quantifier.holds(0..1 << row.length, |set| {
                row.sets.push(set);
                let holds = formula.on(row);
                row.sets.pop();
                holds
            }),
        }
    }

    /// How many quantifiers of sets stand within one another: each takes as many tries as a row has sets of places.
    pub fn sets_within(&self) -> u32 {
        match self {
            Formula::Not(formula) | Formula::OfPlaces(_, formula) => formula.sets_within(),
            Formula::OfSets(_, formula) => 1 + formula.sets_within(),
            Formula::And(formula, other) | Formula::Or(formula, other) | Formula::Same(formula, other) => {
                formula.sets_within().max(other.sets_within())
            }
            _ => 0,
        }
    }
}
