//! Whether a row claim holds of a row, from its definition: for each `some` every set of the row's places is tried.

use super::row_form::{depth, free_sets, signs};
use super::table::Tracks;
use crate::row_part::RowPart;

/// Twelve sets of the places of a row, as bits.
pub type RowSets = [u32; 12];

/// The sets of a row.
pub fn row_sets(row: &[u32]) -> RowSets {
    let mut sets = [0; 12];
    for (place, column) in row.iter().enumerate() {
        for (x, set) in sets.iter_mut().enumerate() {
            *set |= (column >> x & 1) << place;
        }
    }
    sets
}

/// Whether the claim holds of these sets of a row of so many places, fewer than 32.
pub fn holds(claim: &RowPart, places: u32, sets: &mut RowSets) -> bool {
    let set = |x: u8| sets[usize::from(x)];
    let one = |x: u8| set(x).count_ones() == 1;
    match claim {
        RowPart::Within(x, y) => set(*x) & !set(*y) == 0,
        RowPart::Single(x) => one(*x),
        RowPart::Next(x, y) => one(*x) && one(*y) && set(*x) << 1 == set(*y),
        RowPart::Before(x, y) => one(*x) && one(*y) && set(*x) < set(*y),
        RowPart::Multiple(modulus, rest, x) => set(*x).count_ones() % u32::from(*modulus) == u32::from(*rest),
        // the last of n places is n - 1; of no places there is none
        RowPart::Last(x) => set(*x) == (1 << places) >> 1,
        RowPart::Not(c) => !holds(c, places, sets),
        RowPart::And(c, d) => holds(c, places, sets) && holds(d, places, sets),
        RowPart::Some(x, c) => {
            let x = usize::from(*x);
            let old = sets[x];
            let found = (0..1 << places).any(|set| {
                sets[x] = set;
                holds(c, places, sets)
            });
            sets[x] = old;
            found
        }
    }
}

/// All rows of up to so many places over the sets of which the claim speaks, shortest first, with whether it holds.
pub fn rows(claim: &RowPart, places: u32) -> impl Iterator<Item = (Vec<u32>, bool)> + '_ {
    let tracks = Tracks::of(free_sets(claim));
    (0..=places).flat_map(move |length| {
        let tracks = tracks.clone();
        (0..tracks.columns().pow(length)).map(move |number| {
            let row = tracks.word(number, length as usize);
            let holds = holds(claim, length, &mut row_sets(&row));
            (row, holds)
        })
    })
}

/// How many places rows may have so that looking at all of them takes no more than `budget` steps, at most `most`.
pub fn places_within(claim: &RowPart, most: u32, budget: u64) -> u32 {
    let choices = free_sets(claim).count_ones() + depth(claim);
    let steps = |places: u32| signs(claim) << (places * choices).min(50);
    (0..=most).rev().find(|places| steps(*places) <= budget).unwrap_or(0)
}

#[cfg(test)]
mod tests {
    use super::*;
    use crate::row_part::{and, before, last, multiple, next, single, some, within};

    fn decide(claim: &RowPart, row: &[u32]) -> bool {
        holds(claim, row.len() as u32, &mut row_sets(row))
    }

    #[test]
    fn the_last_place() {
        assert!(decide(&last(0), &[]));
        assert!(!decide(&last(0), &[0]));
        assert!(decide(&last(0), &[1]));
        assert!(decide(&last(1), &[1, 0, 2]));
        assert!(!decide(&last(1), &[1, 2, 2]));
        assert!(!decide(&last(1), &[1, 2, 0]));
        assert!(decide(&some(0, last(0)), &[0, 0]));
    }

    #[test]
    fn signs_without_parts() {
        assert!(decide(&within(0, 1), &[3, 2]) && !decide(&within(0, 1), &[1]));
        assert!(decide(&single(0), &[0, 1]) && !decide(&single(0), &[]) && !decide(&single(0), &[1, 1]));
        assert!(decide(&next(0, 1), &[1, 2]) && !decide(&next(0, 1), &[1, 0, 2]) && !decide(&next(0, 1), &[1, 3]));
        assert!(decide(&before(0, 1), &[1, 0, 2]) && !decide(&before(0, 1), &[3]));
        assert!(decide(&multiple(3, 0, 0), &[]) && decide(&multiple(3, 2, 0), &[1, 0, 3]));
    }

    #[test]
    fn sets_end_where_the_row_ends() {
        let claim = some(1, next(0, 1));
        assert!(!decide(&claim, &[0, 1]));
        assert!(decide(&claim, &[0, 1, 0]));
        assert!(!decide(&and(last(0), claim.clone()), &[0, 1]));
    }

    #[test]
    fn all_rows() {
        let claim = single(1);
        let found: Vec<_> = rows(&claim, 2).filter(|(_, holds)| *holds).map(|(row, _)| row).collect();
        assert_eq!(found, [vec![2], vec![0, 2], vec![2, 0]]);
        assert_eq!(rows(&claim, 3).count(), 15);
        assert_eq!(places_within(&claim, 6, 1 << 20), 6);
        assert_eq!(places_within(&claim, 6, 16), 4);
    }
}
