//! Claims about which sets have a place.

use ceivuron::part::{Part, and, before, not, or, single, some, within};

use super::{Sample, all};

/// Each set has one place, set 1's behind set 0's, set 2's behind that, and so on.
pub fn row(sets: u8) -> Sample {
    Sample { sets, part: all((1..sets).map(|x| before(x - 1, x))) }
}

/// Each set has one place.
pub fn singles(sets: u8) -> Sample {
    Sample { sets, part: single_each(0, sets) }
}

/// Each of these sets has one place: halves, and halves of these.
fn single_each(from: u8, to: u8) -> Part {
    match to - from {
        1 => single(from),
        _ => {
            let middle = from + (to - from) / 2;
            and(single_each(from, middle), single_each(middle, to))
        }
    }
}

/// Each place of one set more is one of exactly one of so many.
pub fn one_of(sets: u8) -> Sample {
    let (more, place) = (sets, sets + 1);
    let wrong = all([single(place), within(place, more), not(one(place, 0, sets))]);
    Sample { sets: sets + 2, part: not(some(place, wrong)) }
}

/// The place is one of exactly one of these sets: of the first and no other, or of exactly one of the others.
fn one(place: u8, from: u8, to: u8) -> Part {
    let here = || within(place, from);
    match to - from {
        1 => here(),
        _ => {
            let no_other = all((from + 1..to).map(|set| not(within(place, set))));
            or(and(here(), no_other), and(not(here()), one(place, from + 1, to)))
        }
    }
}
