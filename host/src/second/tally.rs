//! What was compared, counted.

use std::fmt;

use super::reach::{ALL_SETS, depth, period};
use crate::part::Part;

/// What was compared, over all claims.
#[derive(Clone, Debug, Default)]
pub struct Tally {
    pub claims: usize,
    pub always: usize,
    pub never: usize,
    pub both: usize,
    /// Claims that need more classes than were allowed here; nothing else is compared of them.
    pub many: usize,
    /// Claims with which each sign occurs: within, single, next, before, not, and, some, multiple.
    pub signs: [usize; 8],
    /// Claims that count, by the least common multiple of the numbers by which they do: 2, 3, 4, up to 12, more.
    pub periods: [usize; 5],
    /// Claims by how deep `some` is nested: 0, 1, 2, 3 or more.
    pub depths: [usize; 4],
    /// Claims about more sets than any of their parts mentions.
    pub among_more: usize,
    /// Floors compared, some for each claim.
    pub floors: usize,
    /// Claims of which all words of up to so many columns are looked at.
    pub columns: [usize; 7],
    pub words: usize,
    pub unknown: usize,
    pub first_words: usize,
    pub long_words: usize,
    pub classes_equal: usize,
    pub classes_at_least: usize,
    pub pinned_calls: usize,
    /// Words that were not asked about, since the claim with them would be too long.
    pub not_asked: usize,
}

impl Tally {
    /// Notes which signs a claim has, and how deep `some` is nested.
    pub fn note_form(&mut self, part: &Part) {
        let mut seen = [false; 8];
        note_signs(part, &mut seen);
        for (count, seen) in self.signs.iter_mut().zip(seen) {
            *count += usize::from(seen);
        }
        self.depths[depth(part).min(3) as usize] += 1;
        match period(part, ALL_SETS) {
            1 => {}
            period @ 2..=4 => self.periods[period as usize - 2] += 1,
            5..=12 => self.periods[3] += 1,
            _ => self.periods[4] += 1,
        }
    }
}

fn note_signs(c: &Part, seen: &mut [bool; 8]) {
    match c {
        Part::Within(..) => seen[0] = true,
        Part::Single(..) => seen[1] = true,
        Part::Next(..) => seen[2] = true,
        Part::Before(..) => seen[3] = true,
        Part::Multiple(..) => seen[7] = true,
        Part::Not(c) => {
            seen[4] = true;
            note_signs(c, seen);
        }
        Part::And(c, d) => {
            seen[5] = true;
            note_signs(c, seen);
            note_signs(d, seen);
        }
        Part::Some(_, c) => {
            seen[6] = true;
            note_signs(c, seen);
        }
    }
}

impl fmt::Display for Tally {
    fn fmt(&self, f: &mut fmt::Formatter<'_>) -> fmt::Result {
        let Tally { claims, always, never, both, many, .. } = self;
        writeln!(f, "  {claims} claims: {always} always, {never} never, {both} both, {many} too many classes")?;
        let [within, single, next, before, not, and, some, multiple] = self.signs;
        write!(f, "  with within {within}, single {single}, next {next}, before {before}, multiple {multiple}, ")?;
        writeln!(f, "not {not}, and {and}, some {some}")?;
        let [two, three, four, to_twelve, beyond] = self.periods;
        writeln!(f, "  that count by 2 {two}, 3 {three}, 4 {four}, 5 to 12 {to_twelve}, more {beyond}")?;
        let [none, once, twice, more] = self.depths;
        writeln!(f, "  some nested 0 deep {none}, 1 {once}, 2 {twice}, 3 and more {more}")?;
        writeln!(f, "  about more sets than any part mentions {}; {} floors compared", self.among_more, self.floors)?;
        writeln!(f, "  all words of up to 0, 1, ... 6 columns looked at: {:?} claims", self.columns)?;
        writeln!(
            f,
            "  words compared {} ({} left open by definition, {} not asked)",
            self.words, self.unknown, self.not_asked
        )?;
        writeln!(f, "  first words compared {}, and {} that are longer", self.first_words, self.long_words)?;
        writeln!(f, "  classes equal {}, at least as many as counted {}", self.classes_equal, self.classes_at_least)?;
        write!(f, "  {} claims about short words judged", self.pinned_calls)
    }
}
