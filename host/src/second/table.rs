//! A claim on all words of up to so many columns.

use super::holds::{Decider, Sets};
use super::reach::free_sets;
use crate::part::Part;

/// The sets of which a claim speaks, their numbers rising. Words over them alone are looked at: what other sets are
/// does not matter, by the definition of when a claim holds.
#[derive(Clone, Debug)]
pub struct Tracks(Vec<u8>);

impl Tracks {
    pub fn of(sets: u16) -> Tracks {
        Tracks((0..12).filter(|x| sets >> x & 1 == 1).collect())
    }

    pub fn numbers(&self) -> &[u8] {
        &self.0
    }

    /// How many columns there are.
    pub fn columns(&self) -> usize {
        1 << self.0.len()
    }

    /// The column of all sets that has the bits of `narrow` for these.
    pub fn widen(&self, narrow: usize) -> u32 {
        self.0.iter().enumerate().fold(0, |column, (i, x)| column | ((narrow >> i & 1) as u32) << x)
    }

    /// The word with this number, of all words of `length` columns in their order.
    pub fn word(&self, mut number: usize, length: usize) -> Vec<u32> {
        let mut word = vec![0; length];
        for column in word.iter_mut().rev() {
            *column = self.widen(number % self.columns());
            number /= self.columns();
        }
        word
    }
}

/// The first word of a sort, as far as a table shows it.
#[derive(Clone, Debug, PartialEq, Eq)]
pub enum First {
    Word(Vec<u32>),
    /// All words are known, and there is none.
    None,
    /// It may be a word of which it is not known.
    Unknown,
}

/// What is known of all words of one length, by their numbers. Shorter words are there too, with columns 0 behind.
#[derive(Clone, Debug)]
pub struct Table {
    pub tracks: Tracks,
    pub length: usize,
    pub values: Vec<Option<bool>>,
}

impl Table {
    /// All words of at most `most` columns, or as many columns as the budget allows; none of it where it does not even allow
    /// the empty word.
    pub fn new(claim: &Part, tracks: Tracks, most: usize, budget: u64) -> Option<Table> {
        let mut decider = Decider::new(claim, budget);
        let mut table: Option<Table> = None;
        for length in 0..=most {
            let Some(longer) = Table::of_length(&mut decider, &tracks, length, table.as_ref()) else { break };
            table = Some(longer);
        }
        table
    }

    /// The words of one length, those that end in a column 0 from the table of shorter words.
    fn of_length(decider: &mut Decider, tracks: &Tracks, length: usize, shorter: Option<&Table>) -> Option<Table> {
        let values = Vec::with_capacity(tracks.columns().pow(length as u32));
        let mut walk = Walk { decider, tracks, length, shorter, values };
        walk.from(0, &mut [0; 12])?;
        Some(Table { tracks: tracks.clone(), length, values: walk.values })
    }

    /// The first word, in the order of words, of which the claim is known to hold (`wanted`) or not to, if of no
    /// word before it anything is unknown.
    pub fn first(&self, wanted: bool) -> First {
        for length in 0..=self.length {
            let stride = self.tracks.columns().pow((self.length - length) as u32);
            for number in 0..self.tracks.columns().pow(length as u32) {
                match self.values[number * stride] {
                    Some(value) if value == wanted => return First::Word(self.tracks.word(number, length)),
                    Some(_) => {}
                    None => return First::Unknown,
                }
            }
        }
        First::None
    }

    /// How many words are known.
    pub fn known(&self) -> usize {
        self.values.iter().flatten().count()
    }
}

/// Goes through all words of one length in their order, and keeps the sets of the word at hand.
struct Walk<'a> {
    decider: &'a mut Decider,
    tracks: &'a Tracks,
    length: usize,
    shorter: Option<&'a Table>,
    values: Vec<Option<bool>>,
}

impl Walk<'_> {
    /// All columns for the places from this one on; `None` once the budget is spent.
    fn from(&mut self, place: usize, sets: &mut Sets) -> Option<()> {
        if place == self.length {
            let number = self.values.len();
            let value = match self.shorter {
                Some(table) if number.is_multiple_of(self.tracks.columns()) => {
                    table.values[number / self.tracks.columns()]
                }
                _ => self.decider.holds(sets),
            };
            self.values.push(value);
            return (!self.decider.is_spent()).then_some(());
        }
        for column in 0..self.tracks.columns() {
            for (i, x) in self.tracks.numbers().iter().enumerate() {
                let set = &mut sets[usize::from(*x)];
                *set = *set & !(1 << place) | (column as u128 >> i & 1) << place;
            }
            self.from(place + 1, sets)?;
        }
        for x in self.tracks.numbers() {
            sets[usize::from(*x)] &= !(1 << place);
        }
        Some(())
    }
}

/// The table of a claim over the sets of which it speaks.
pub fn table(claim: &Part, most: usize, budget: u64) -> Option<Table> {
    Table::new(claim, Tracks::of(free_sets(claim)), most, budget)
}

#[cfg(test)]
mod tests {
    use super::*;
    use crate::second::holds::sets;

    /// The value of a word is what is decided of its sets.
    #[test]
    fn words_by_number() {
        let tracks = Tracks::of(0b101);
        assert_eq!(tracks.word(0b01_00_11, 3), [1, 0, 5]);
        let claim = crate::part::before(0, 2);
        let table = table(&claim, 3, 1 << 20).unwrap();
        for (number, value) in table.values.iter().enumerate() {
            let mut decider = Decider::new(&claim, 1 << 20);
            assert_eq!(*value, decider.holds(&mut sets(&tracks.word(number, 3))), "{number}");
        }
    }

    #[test]
    fn first_words_by_number() {
        let table = table(&crate::part::next(0, 1), 3, 1 << 20).unwrap();
        assert_eq!(table.first(true), First::Word(vec![1, 2]));
        assert_eq!(table.first(false), First::Word(vec![]));
        assert_eq!((table.length, table.known()), (3, 64));
    }
}
