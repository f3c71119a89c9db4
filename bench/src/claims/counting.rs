//! Claims that count: places, steps between places, and a counter of a long period.

use ceivuron::part::{Part, and, before, next, not, single, some, within};

use super::{Sample, all};

/// A set has fewer than so many places: there are not so many, one behind the other.
pub fn trays(count: usize) -> Sample {
    Sample { sets: 3, part: fewer(count, 0, [1, 2]) }
}

/// Fewer than eight places of a set where there are so many sets, of which the claim speaks of three.
pub fn few_of(sets: u8) -> Sample {
    Sample { sets, part: fewer(8, 0, [1, 2]) }
}

/// The counter `marks` of degree 7 where there are so many sets, at least four: the claim speaks of four of them, of the first and the
/// last and two in between.
pub fn four_of(sets: u8) -> Sample {
    let last = sets - 1;
    Sample { sets, part: marks(7, 1).part.renamed(&[0, last / 3, 2 * last / 3, last]) }
}

/// Eight lanes: the first has room for four trays, the others for two.
pub fn lanes() -> Sample {
    Sample { sets: 10, part: and(all((0..4).map(lane)), all((4..8).map(lane))) }
}

fn lane(lane: u8) -> Part {
    fewer(if lane == 0 { 5 } else { 3 }, lane, [8, 9])
}

/// A set has fewer than so many places. Two others take turns.
fn fewer(count: usize, set: u8, turns: [u8; 2]) -> Part {
    fn from(left: usize, before_set: Option<u8>, set: u8, [here, other]: [u8; 2]) -> Part {
        let place = before_set.map_or(single(here), |last| before(last, here));
        let place = and(place, within(here, set));
        some(here, if left == 1 { place } else { and(place, from(left - 1, Some(here), set, [other, here])) })
    }
    not(from(count, None, set, turns))
}

/// Steps from the place of set `here` on, sets `here` and `other` taking turns; `claim` says what is so at the last place, by its set.
fn ahead(steps: usize, here: u8, other: u8, claim: impl FnOnce(u8) -> Part) -> Part {
    if steps == 0 {
        return claim(here);
    }
    some(other, and(next(here, other), ahead(steps - 1, other, here, claim)))
}

/// No two places of set 0 are exactly so far apart.
pub fn apart(distance: usize) -> Sample {
    let part = not(some(1, and(single(1), and(within(1, 0), ahead(distance, 1, 2, |last| within(last, 0))))));
    Sample { sets: 3, part }
}

/// A counter: set 1 has one place, and up to it set 0 begins with one place and then none, and goes on by a recurrence, whose period is
/// 2^degree - 1: place i + degree is one of set 0 exactly if one of places i and i + tap is, and not both. At set 1's place,
/// set 0 has `degree` places one behind the other. The classes form a chain of that length, so that joining takes as many rounds.
pub fn marks(degree: usize, tap: usize) -> Sample {
    let has = |place: u8, wanted: bool| if wanted { within(place, 0) } else { not(within(place, 0)) };
    let wrong = |a: bool, b: bool| {
        let last = |place| and(has(place, a == b), not(before(1, place)));
        let after = |place: u8| and(has(place, b), ahead(degree - tap, place, 5 - place, last));
        not(some(2, and(single(2), and(has(2, a), ahead(tap, 2, 3, after)))))
    };
    fn start(left: usize, here: u8) -> Part {
        let other = 5 - here;
        let step = and(next(here, other), not(within(other, 0)));
        some(other, if left == 1 { step } else { and(step, start(left - 1, other)) })
    }
    fn end(left: usize, here: u8) -> Part {
        let other = 5 - here;
        let step = and(next(other, here), within(other, 0));
        some(other, if left == 1 { step } else { and(step, end(left - 1, other)) })
    }
    let first = and(single(2), not(some(3, next(3, 2))));
    let begins = some(2, and(first, and(within(2, 0), start(degree - 1, 2))));
    let ends = some(2, and(within(2, 1), and(single(2), and(within(2, 0), end(degree - 1, 2)))));
    let part = [wrong(false, false), wrong(false, true), wrong(true, false), wrong(true, true), begins, ends]
        .into_iter()
        .fold(single(1), and);
    Sample { sets: 4, part }
}
