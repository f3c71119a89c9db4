//! The call asked about short words, all of a list at once.

use super::compared::Difference;
use super::pinned::{Places, is_listed, is_short};
use super::reach::free_sets;
use super::table::{Table, Tracks};
use super::tally::Tally;
use crate::answer::Answer;
use crate::claim::Claim;
use crate::judge::Judge;
use crate::part::{Part, and, not};

/// All short words of which the second program knows: the claim, together with a claim that the sets are one of the words of which
/// it does not hold, must never hold; the same of its opposite; and it must first hold together with those of which it holds where
/// the first of these is.
pub(super) fn compare_words(
    judge: &mut Judge,
    part: &Part,
    table: &Table,
    tally: &mut Tally,
) -> Result<(), Difference> {
    let listed = |wanted: bool| -> Vec<bool> { table.values.iter().map(|value| *value == Some(wanted)).collect() };
    let (holds, fails) = (listed(true), listed(false));
    tally.words += table.known();
    tally.unknown += table.values.len() - table.known();
    let mut pins = Pins { judge, table, tally };
    pins.ask(part, &holds, true)?;
    pins.ask(part, &fails, false)?;
    pins.ask(&not(part.clone()), &holds, false)
}

/// Asks the call about listed words.
struct Pins<'a> {
    judge: &'a mut Judge,
    table: &'a Table,
    tally: &'a mut Tally,
}

impl Pins<'_> {
    /// The claim must hold of one of the listed words exactly if `some` is said, and then of the first of them first. Where the
    /// claim with its list is too long, or takes too many classes, the list is halved.
    fn ask(&mut self, part: &Part, listed: &[bool], some: bool) -> Result<(), Difference> {
        let Table { tracks, length, .. } = self.table;
        let Some(first) = first_listed(tracks, *length, listed) else { return Ok(()) };
        if let Some(answer) = self.answer(part, listed)? {
            return match answer {
                Answer::Never if !some => Ok(()),
                Answer::Both { holds, .. } if some && holds == first => Ok(()),
                // of a claim that speaks of no set there is one word, the empty one
                Answer::Always if some && tracks.numbers().is_empty() => Ok(()),
                other => Err(format!(
                    "with {first:?} as the first word listed, expected of {part:?}: {some}; judged {other}"
                )),
            };
        }
        let numbers: Vec<_> = (0..listed.len()).filter(|number| listed[*number]).collect();
        if numbers.len() == 1 {
            self.tally.not_asked += 1;
            return Ok(());
        }
        let middle = numbers[numbers.len() / 2];
        let (mut left, mut right) = (listed.to_vec(), listed.to_vec());
        left[middle..].fill(false);
        right[..middle].fill(false);
        self.ask(part, &left, some)?;
        self.ask(part, &right, some)
    }

    /// What is judged of the claim together with the list; `None` where that is too much.
    fn answer(&mut self, part: &Part, listed: &[bool]) -> Result<Option<Answer>, Difference> {
        let Table { tracks, length, .. } = self.table;
        let free = free_sets(part);
        let mut unused = (0..12).filter(|x| free >> x & 1 == 0);
        let (Some(here), Some(other)) = (unused.next(), unused.next()) else { return Ok(None) };
        let places = Places { here, other };
        let Some(list) = is_listed(tracks, listed, places) else { return Ok(Some(Answer::Never)) };
        let whole = and(is_short(tracks, *length, places), and(part.clone(), list));
        if whole.size() > 1023 {
            return Ok(None);
        }
        let claim = Claim::new(count_sets(&whole), &whole);
        for most in [128, 1024] {
            self.tally.pinned_calls += 1;
            match self.judge.judge(&claim, most).map_err(|refused| refused.to_string())? {
                Answer::Many => {}
                answer => return Ok(Some(answer)),
            }
        }
        Ok(None)
    }
}

/// One more than the largest number of a set in the claim.
fn count_sets(c: &Part) -> u8 {
    match c {
        Part::Single(x) | Part::Multiple(_, _, x) => x + 1,
        Part::Within(x, y) | Part::Next(x, y) | Part::Before(x, y) => x.max(y) + 1,
        Part::Not(c) => count_sets(c),
        Part::And(c, d) => count_sets(c).max(count_sets(d)),
        Part::Some(x, c) => count_sets(c).max(x + 1),
    }
}

/// The first listed word, without the columns 0 at its end.
fn first_listed(tracks: &Tracks, length: usize, listed: &[bool]) -> Option<Vec<u32>> {
    (0..=length).find_map(|short| {
        let stride = tracks.columns().pow((length - short) as u32);
        let number = (0..tracks.columns().pow(short as u32)).find(|number| listed[number * stride])?;
        Some(tracks.word(number, short))
    })
}
