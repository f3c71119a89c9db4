//! How many classes must be told apart to work a claim out from its parts, counted from the definition over short words.
//!
//! Two words leave the same of a claim if, whatever is put behind both, it holds of both or of neither. A claim without parts
//! tells apart what leaves something different of it; `and` what leaves something different of the one part or of the other;
//! `some x c` what leaves something different of it, and which things are left of c by the words that agree in all sets but x,
//! where what cannot hold any more is not counted. A claim fits into n if at most n classes are told apart at each of these.
//!
//! Over words of up to p columns, with up to q columns behind, no class is counted that is not there, since what is seen of a word
//! is determined by its class. So the count is at most the true one; it is taken for the true one where a column more or less, in
//! the words or behind them, changes nothing. Of a claim that counts so few columns may show nothing at all, so there the columns must
//! also be more than the least common multiple of the numbers by which it counts.

use std::collections::{BTreeSet, HashMap, HashSet};

use super::reach::{ALL_SETS, free_sets, period};
use super::table::{Table, Tracks};
use crate::part::Part;

/// A count over short words.
#[derive(Clone, Copy, Debug, PartialEq, Eq)]
pub struct Count {
    pub classes: usize,
    /// Whether one column less changes nothing.
    pub stable: bool,
}

/// Counts classes, and remembers what was counted at each part.
#[derive(Default)]
pub struct Counter {
    known: HashMap<Part, Option<Count>>,
}

impl Counter {
    /// The most classes that are counted at a part. `None` where nothing could be counted at any part.
    pub fn count(&mut self, claim: &Part, budget: u64) -> Option<Count> {
        let mut parts = HashSet::new();
        collect(claim, &mut parts);
        let mut counts = Vec::new();
        for part in parts {
            let count = match self.known.get(part) {
                Some(count) => *count,
                None => count_part(part, budget),
            };
            self.known.insert(part.clone(), count);
            counts.push(count);
        }
        let classes = counts.iter().flatten().map(|count| count.classes).max()?;
        let stable = counts.iter().all(|count| count.is_some_and(|count| count.stable));
        Some(Count { classes, stable })
    }
}

/// The parts at which classes are told apart: all but `not`.
fn collect<'a>(c: &'a Part, parts: &mut HashSet<&'a Part>) {
    match c {
        Part::Not(c) => return collect(c, parts),
        Part::And(c, d) => {
            collect(c, parts);
            collect(d, parts);
        }
        Part::Some(_, c) => collect(c, parts),
        _ => {}
    }
    parts.insert(c);
}

/// The classes at one part.
fn count_part(c: &Part, budget: u64) -> Option<Count> {
    let sets = match c {
        Part::Some(x, part) => free_sets(part) | 1 << x,
        _ => free_sets(c),
    };
    let tracks = Tracks::of(sets);
    // Words of 2p columns in all, some ten thousands of them.
    let p = match tracks.columns() {
        1 | 2 => 7,
        4 => 4,
        8 => 3,
        _ => return None,
    };
    count_within(c, &tracks, p, budget).or_else(|| count_within(c, &tracks, p - 1, budget))
}

/// The classes at one part, over words of up to p columns and p columns behind.
fn count_within(c: &Part, tracks: &Tracks, p: usize, budget: u64) -> Option<Count> {
    let seen: Vec<Residuals> = match c {
        Part::And(c, d) => vec![Residuals::new(c, tracks, p, budget)?, Residuals::new(d, tracks, p, budget)?],
        Part::Some(_, part) => vec![Residuals::new(c, tracks, p, budget)?, Residuals::new(part, tracks, p, budget)?],
        _ => vec![Residuals::new(c, tracks, p, budget)?],
    };
    let count = |p: usize, q: usize| match c {
        Part::Some(x, _) => count_but(*x, tracks, &seen[0], &seen[1], p, q),
        _ => count_together(tracks, &seen, p, q),
    };
    let classes = count(p, p);
    let less = period(c, ALL_SETS) as usize;
    Some(Count { classes, stable: less < p && count(p - 1, p) == classes && count(p, p - 1) == classes })
}

/// What is seen of a claim over short words: whether it holds of each word of 2p columns.
struct Residuals {
    values: Vec<bool>,
    columns: usize,
    length: usize,
}

impl Residuals {
    /// `None` where something is unknown, or the budget does not suffice.
    fn new(c: &Part, tracks: &Tracks, p: usize, budget: u64) -> Option<Residuals> {
        let values = values(c, tracks, 2 * p, budget)?;
        Some(Residuals { values, columns: tracks.columns(), length: 2 * p })
    }

    /// What is left after the word with this number and length: for every word of q columns behind it, and so for shorter
    /// ones too, whether the claim holds.
    fn after(&self, number: usize, length: usize, q: usize) -> Vec<bool> {
        let pad = self.columns.pow((self.length - length - q) as u32);
        let behind = self.columns.pow(q as u32);
        (0..behind).map(|x| self.values[(number * behind + x) * pad]).collect()
    }
}

/// Whether a claim holds of each word of a length. `not` and `and` are by what is known of their parts.
fn values(c: &Part, tracks: &Tracks, length: usize, budget: u64) -> Option<Vec<bool>> {
    match c {
        Part::Not(c) => {
            let mut values = values(c, tracks, length, budget)?;
            values.iter_mut().for_each(|value| *value = !*value);
            Some(values)
        }
        Part::And(c, d) => {
            let mut both = values(c, tracks, length, budget)?;
            let other = values(d, tracks, length, budget)?;
            both.iter_mut().zip(other).for_each(|(value, other)| *value &= other);
            Some(both)
        }
        _ => {
            let table = Table::new(c, tracks.clone(), length, budget)?;
            if table.length < length {
                return None;
            }
            table.values.into_iter().collect()
        }
    }
}

/// All words of up to p columns, by number and length.
fn words(tracks: &Tracks, p: usize) -> impl Iterator<Item = (usize, usize)> + '_ {
    (0..=p).flat_map(|length| (0..tracks.columns().pow(length as u32)).map(move |number| (number, length)))
}

/// The words told apart by what is left of one of the claims.
fn count_together(tracks: &Tracks, seen: &[Residuals], p: usize, q: usize) -> usize {
    let classes: HashSet<Vec<Vec<bool>>> = words(tracks, p)
        .map(|(number, length)| seen.iter().map(|residuals| residuals.after(number, length, q)).collect())
        .collect();
    classes.len()
}

/// The words told apart by what is left of the whole, and by which things are left of the part whatever set x is.
fn count_but(x: u8, tracks: &Tracks, whole: &Residuals, part: &Residuals, p: usize, q: usize) -> usize {
    let bit = tracks.numbers().iter().position(|y| *y == x).expect("x is one of the tracks");
    let left: HashMap<(usize, usize), Vec<bool>> =
        words(tracks, p).map(|(number, length)| ((number, length), part.after(number, length, q))).collect();
    let classes: HashSet<(Vec<bool>, BTreeSet<&Vec<bool>>)> = words(tracks, p)
        // words that differ in x alone are not told apart, so one of them stands for all
        .filter(|(number, length)| without(tracks, bit, *number, *length) == *number)
        .map(|(number, length)| {
            let things = (0..1usize << length)
                .map(|places| &left[&(with(tracks, bit, number, length, places), length)])
                .filter(|thing| thing.contains(&true))
                .collect();
            (whole.after(number, length, q), things)
        })
        .collect();
    classes.len()
}

/// The number of the word in which the set of this bit has no place.
fn without(tracks: &Tracks, bit: usize, number: usize, length: usize) -> usize {
    (0..length).fold(number, |number, i| number & !(1 << (bit + i * tracks.numbers().len())))
}

/// The number of the word, which has none, in which the set of this bit has these places, counted from the end.
fn with(tracks: &Tracks, bit: usize, number: usize, length: usize, places: usize) -> usize {
    let place = |i: usize| (places >> i & 1) << (bit + i * tracks.numbers().len());
    (0..length).fold(number, |number, i| number | place(i))
}

#[cfg(test)]
mod tests {
    use super::*;
    use crate::part::{and, before, multiple, next, single, some, within};

    fn counted(claim: &Part) -> Option<Count> {
        Counter::default().count(claim, 1 << 30)
    }

    #[test]
    fn known_counts() {
        let stable = |classes| Some(Count { classes, stable: true });
        assert_eq!(counted(&within(0, 0)), stable(1));
        assert_eq!(counted(&within(0, 1)), stable(2));
        assert_eq!(counted(&single(0)), stable(3));
        assert_eq!(counted(&next(0, 1)), stable(4));
        assert_eq!(counted(&next(0, 0)), stable(1));
        assert_eq!(counted(&and(before(0, 1), before(1, 0))), stable(6));
        assert_eq!(counted(&some(1, within(1, 0))), stable(2));
        assert_eq!(counted(&some(1, next(0, 1))), stable(4));
        assert_eq!(counted(&multiple(2, 1, 0)), stable(2));
        assert_eq!(counted(&multiple(6, 0, 0)), stable(6));
        assert_eq!(counted(&and(multiple(2, 0, 0), multiple(3, 2, 0))), stable(6));
        assert_eq!(counted(&some(1, and(within(1, 0), multiple(3, 2, 1)))), stable(6));
    }

    /// Of this claim seven columns with seven behind show nothing: it holds first of fifteen.
    #[test]
    fn what_is_not_seen_is_not_taken_for_true() {
        assert_eq!(counted(&multiple(16, 15, 0)), Some(Count { classes: 1, stable: false }));
    }
}
