//! Claims that say which short word the sets are, so that the call can be asked about short words.
//!
//! The sets have all their places below m, and read as a word of m columns they are one of a given list: that is said by going
//! from place 0 on, with a `some` for each place, and looking at the column there. Columns behind which the same words are left
//! are taken together, so that the claim is no larger than it must be. Two further sets are used, one for a place and one for the next.

use super::table::Tracks;
use crate::part::{Part, and, before, next, not, or, single, some, within};

/// A claim, or one that always or never holds, which need not be written.
#[derive(Clone, Debug, PartialEq, Eq)]
enum Said {
    Always,
    Never,
    Claim(Part),
}

impl Said {
    fn and(self, other: Said) -> Said {
        match (self, other) {
            (Said::Never, _) | (_, Said::Never) => Said::Never,
            (Said::Always, said) | (said, Said::Always) => said,
            (Said::Claim(c), Said::Claim(d)) => Said::Claim(and(c, d)),
        }
    }

    fn or(self, other: Said) -> Said {
        match (self, other) {
            (Said::Always, _) | (_, Said::Always) => Said::Always,
            (Said::Never, said) | (said, Said::Never) => said,
            (Said::Claim(c), Said::Claim(d)) => Said::Claim(or(c, d)),
        }
    }
}

/// Two sets that stand for places: the one at hand, and the other.
#[derive(Clone, Copy)]
pub struct Places {
    pub here: u8,
    pub other: u8,
}

impl Places {
    fn swapped(self) -> Places {
        Places { here: self.other, other: self.here }
    }
}

/// `here` is the place with this number, where `other` is the one before it.
fn is_place(number: usize, places: Places) -> Part {
    match number {
        0 => and(single(places.here), not(some(places.other, next(places.other, places.here)))),
        _ => next(places.other, places.here),
    }
}

/// The sets have all their places below `length`.
pub fn is_short(tracks: &Tracks, length: usize, places: Places) -> Part {
    short_from(tracks, 0, length, places)
}

/// The same, where `other` is the place before this number.
fn short_from(tracks: &Tracks, number: usize, length: usize, places: Places) -> Part {
    let is_place = is_place(number, places);
    if number < length {
        let rest = short_from(tracks, number + 1, length, places.swapped());
        return some(places.here, and(is_place, rest));
    }
    let Places { here, other } = places;
    let behind = |x: &u8| not(some(other, and(within(other, *x), and(single(other), not(before(other, here))))));
    let none_behind = tracks.numbers().iter().map(behind);
    some(here, none_behind.fold(is_place, and))
}

/// The sets, which have no place from `length` on, are a word that is listed: `listed` has for each word of `length` columns
/// whether it is. `None` where no word is.
pub fn is_listed(tracks: &Tracks, listed: &[bool], places: Places) -> Option<Part> {
    match listed_from(tracks, 0, listed, places) {
        Said::Always => Some(within(places.here, places.here)),
        Said::Never => None,
        Said::Claim(c) => Some(c),
    }
}

/// The same of the columns from this place on, where `other` is the place before.
fn listed_from(tracks: &Tracks, number: usize, listed: &[bool], places: Places) -> Said {
    if listed.iter().all(|is| *is) {
        return Said::Always;
    }
    if listed.iter().all(|is| !*is) {
        return Said::Never;
    }
    let columns = tracks.columns();
    let rests: Vec<_> = listed.chunks(listed.len() / columns).collect();
    let mut said = Said::Never;
    for (column, rest) in rests.iter().enumerate() {
        // columns behind which the same is listed are taken together, at the first of them
        if rests[..column].contains(rest) {
            continue;
        }
        let alike: Vec<bool> = rests.iter().map(|other| other == rest).collect();
        let here = column_among(tracks.numbers(), &alike, places.here);
        said = said.or(here.and(listed_from(tracks, number + 1, rest, places.swapped())));
    }
    match Said::Claim(is_place(number, places)).and(said) {
        Said::Claim(c) => Said::Claim(some(places.here, c)),
        said => said,
    }
}

/// The column at a place is one of those marked, by the sets' numbers; the last set decides first.
fn column_among(sets: &[u8], marked: &[bool], place: u8) -> Said {
    let Some((last, others)) = sets.split_last() else {
        return if marked[0] { Said::Always } else { Said::Never };
    };
    let (without, with) = marked.split_at(marked.len() / 2);
    if without == with {
        return column_among(others, with, place);
    }
    let has = within(place, *last);
    let with = Said::Claim(has.clone()).and(column_among(others, with, place));
    let without = Said::Claim(not(has)).and(column_among(others, without, place));
    with.or(without)
}

#[cfg(test)]
mod tests {
    use super::*;
    use crate::second::table::{Table, Tracks};

    /// What is pinned is decided by definition too.
    #[test]
    fn the_listed_words_are_those() {
        let tracks = Tracks::of(0b11);
        let places = Places { here: 2, other: 3 };
        let listed: Vec<bool> = (0..16).map(|number| number % 5 == 1 || number == 9).collect();
        let claim = and(is_short(&tracks, 2, places), is_listed(&tracks, &listed, places).unwrap());
        let table = Table::new(&claim, tracks, 3, 1 << 30).unwrap();
        assert_eq!(table.length, 3);
        for (number, value) in table.values.iter().enumerate() {
            let is = number % 4 == 0 && listed[number / 4];
            assert_eq!(*value, Some(is), "{:?}", table.tracks.word(number, 3));
        }
        assert_eq!(is_listed(&Tracks::of(1), &[false; 4], places), None);
    }
}
