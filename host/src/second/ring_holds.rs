//! Whether a ring claim holds of a ring, from its definition: for each `some` every set of the ring's places is tried.

use super::row_form::free_sets;
use super::row_holds::{RowSets, row_sets};
use super::table::Tracks;
use crate::ring_part::RingPart;
use crate::row_part::RowPart;

/// A set with each place moved to the next one, in a ring of so many places.
fn moved(set: u32, places: u32) -> u32 {
    (0..places).filter(|place| set >> place & 1 == 1).fold(0, |moved, place| moved | 1 << ((place + 1) % places))
}

/// Whether the claim holds of these sets of a ring of so many places, fewer than 32.
pub fn holds(claim: &RingPart, places: u32, sets: &mut RowSets) -> bool {
    let set = |x: u8| sets[usize::from(x)];
    let one = |x: u8| set(x).count_ones() == 1;
    match claim {
        RingPart::Within(x, y) => set(*x) & !set(*y) == 0,
        RingPart::Single(x) => one(*x),
        RingPart::Next(x, y) => one(*x) && moved(set(*x), places) == set(*y),
        RingPart::Multiple(modulus, rest, x) => set(*x).count_ones() % u32::from(*modulus) == u32::from(*rest),
        RingPart::Not(c) => !holds(c, places, sets),
        RingPart::And(c, d) => holds(c, places, sets) && holds(d, places, sets),
        RingPart::Some(x, c) => {
            let x = usize::from(*x);
            let old = sets[x];
            let found = (0..1 << places).any(|set| {
                sets[x] = set;
                holds(c, places, sets)
            });
            sets[x] = old;
            found
        }
    }
}

/// All rings of up to so many places over the sets of which the claim speaks, shortest first, with whether it holds.
pub fn rings(claim: &RingPart, places: u32) -> impl Iterator<Item = (Vec<u32>, bool)> + '_ {
    let tracks = Tracks::of(free_sets(&RowPart::from(claim)));
    (0..=places).flat_map(move |length| {
        let tracks = tracks.clone();
        (0..tracks.columns().pow(length)).map(move |number| {
            let ring = tracks.word(number, length as usize);
            let holds = holds(claim, length, &mut row_sets(&ring));
            (ring, holds)
        })
    })
}

/// The ring turned by one place: what was first is last.
pub fn turned(ring: &[u32]) -> Vec<u32> {
    let mut turned = ring.to_vec();
    turned.rotate_left(ring.len().min(1));
    turned
}

#[cfg(test)]
mod tests {
    use super::*;
    use crate::ring_part::{multiple, next, not, single, some, within};

    fn decide(claim: &RingPart, ring: &[u32]) -> bool {
        holds(claim, ring.len() as u32, &mut row_sets(ring))
    }

    #[test]
    fn the_next_place() {
        assert!(decide(&next(0, 1), &[1, 2, 0]) && decide(&next(0, 1), &[2, 0, 1]) && !decide(&next(0, 1), &[1, 0, 2]));
        assert!(decide(&next(0, 1), &[1, 2]) && decide(&next(1, 0), &[1, 2]) && !decide(&next(0, 1), &[3, 0]));
        assert!(decide(&next(0, 1), &[3]) && decide(&next(0, 0), &[1]));
        assert!(!decide(&next(0, 0), &[]) && !decide(&next(0, 0), &[0]) && !decide(&next(0, 0), &[1, 0]));
        assert!(!decide(&next(0, 1), &[1, 2, 1]) && !decide(&next(0, 1), &[1, 2, 2]));
    }

    #[test]
    fn the_other_signs() {
        assert!(decide(&within(0, 1), &[3, 2]) && !decide(&within(0, 1), &[1]));
        assert!(decide(&single(0), &[0, 1]) && !decide(&single(0), &[]) && !decide(&single(0), &[1, 1]));
        assert!(decide(&multiple(3, 0, 0), &[]) && decide(&multiple(3, 2, 0), &[1, 0, 3]));
        // every place has a next one
        assert!(decide(&some(1, next(0, 1)), &[0, 0, 1]) && !decide(&not(some(1, next(0, 1))), &[1]));
    }

    #[test]
    fn rings_turn() {
        assert_eq!(turned(&[]), []);
        assert_eq!(turned(&[1, 2, 3]), [2, 3, 1]);
        assert_eq!(rings(&single(1), 3).count(), 15);
    }
}
