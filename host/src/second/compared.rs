//! The proved call and the second program, held against each other on one claim.

use std::cmp::Ordering;

use super::classes::{Count, Counter};
use super::holds::{Decider, sets};
use super::pins::compare_words;
use super::table::{First, Table, table};
use super::tally::Tally;
use super::widths::{self, widest};
use crate::answer::Answer;
use crate::claim::Claim;
use crate::judge::Judge;
use crate::part::Part;

/// How much is spent on a claim.
#[derive(Clone, Copy)]
pub struct Effort {
    /// Words of up to so many columns.
    pub columns: usize,
    /// Parts looked at by the second program, for the table of the claim and for that of each of its parts.
    pub budget: u64,
}

/// What one says and the other does not.
pub type Difference = String;

/// The most classes that are allowed here.
const MOST: u32 = 4096;

/// The numbers of classes for which floors are compared: from some on they pass 2^64.
const FLOORS: [u32; 6] = [0, 1, 31, MOST, 1 << 31, u32::MAX];

/// Compares claims, one after the other.
pub struct Comparison {
    pub judge: Judge,
    pub effort: Effort,
    pub counter: Counter,
}

impl Comparison {
    pub fn new(effort: Effort) -> Comparison {
        Comparison { judge: Judge::new(), effort, counter: Counter::default() }
    }

    /// Compares everything on one claim about `sets` sets.
    pub fn compare(&mut self, sets: u8, part: &Part, tally: &mut Tally) -> Result<(), Difference> {
        tally.claims += 1;
        tally.note_form(part);
        tally.among_more += usize::from(u32::from(sets) > widest(part));
        let claim = Claim::new(sets, part);
        for most in FLOORS {
            widths::compare(claim.bytes(), most)?;
            tally.floors += 1;
        }
        let Some((least, answer)) = least_classes(&mut self.judge, &claim)? else {
            tally.many += 1;
            return Ok(());
        };
        match &answer {
            Answer::Always => tally.always += 1,
            Answer::Never => tally.never += 1,
            Answer::Both { .. } => tally.both += 1,
            other => return Err(format!("the answer is {other}")),
        }
        if let Some(table) = table(part, self.effort.columns, self.effort.budget) {
            tally.columns[table.length] += 1;
            compare_first_words(&table, &answer, tally)?;
            compare_words(&mut self.judge, part, &table, tally)?;
        }
        compare_long_words(part, &answer, self.effort, tally)?;
        if widest(part) <= 3 {
            compare_classes(&mut self.counter, part, least, self.effort, tally)?;
        }
        Ok(())
    }
}

/// The least number of classes with which the claim is judged, and the answer, which must be the same with more.
fn least_classes(judge: &mut Judge, claim: &Claim) -> Result<Option<(u32, Answer)>, Difference> {
    let mut ask = |most| judge.judge(claim, most).map_err(|refused| refused.to_string());
    let (mut below, mut fits) = (0, 1);
    let answer = loop {
        match ask(fits)? {
            Answer::Many if fits >= MOST => return Ok(None),
            Answer::Many => (below, fits) = (fits, 2 * fits),
            answer => break answer,
        }
    };
    while fits - below > 1 {
        let middle = below + (fits - below) / 2;
        match ask(middle)? {
            Answer::Many => below = middle,
            same if same == answer => fits = middle,
            other => return Err(format!("{other} with {middle} classes, {answer} with more")),
        }
    }
    Ok(Some((fits, answer)))
}

/// The first words, where they are short; *always* and *never* on short words.
fn compare_first_words(table: &Table, answer: &Answer, tally: &mut Tally) -> Result<(), Difference> {
    for wanted in [true, false] {
        let said = match (answer, wanted) {
            (Answer::Both { holds, .. }, true) => Some(holds),
            (Answer::Both { fails, .. }, false) => Some(fails),
            (Answer::Always, true) | (Answer::Never, false) => continue,
            _ => None,
        };
        let short = said.filter(|word| word.len() <= table.length);
        match (table.first(wanted), short) {
            (First::Unknown, _) => {}
            (First::None, None) => tally.first_words += 1,
            (First::Word(found), Some(word)) if found == *word => tally.first_words += 1,
            (found, _) => return Err(format!("first word ({wanted}): {found:?} by definition, {said:?} judged")),
        }
    }
    Ok(())
}

/// The first words that are too long for the table: that the claim holds or does not.
fn compare_long_words(part: &Part, answer: &Answer, effort: Effort, tally: &mut Tally) -> Result<(), Difference> {
    let Answer::Both { holds, fails } = answer else { return Ok(()) };
    for (word, wanted) in [(holds, true), (fails, false)] {
        if word.len() <= effort.columns || word.len() > 100 {
            continue;
        }
        match Decider::new(part, 100 * effort.budget).holds(&mut sets(word)) {
            Some(value) if value == wanted => tally.long_words += 1,
            Some(_) => return Err(format!("first word ({wanted}): by definition {word:?} is none")),
            None => {}
        }
    }
    Ok(())
}

/// The classes counted from their definition, against the least number that the call accepts.
fn compare_classes(
    counter: &mut Counter,
    part: &Part,
    least: u32,
    effort: Effort,
    tally: &mut Tally,
) -> Result<(), Difference> {
    let Some(Count { classes, stable }) = counter.count(part, effort.budget) else { return Ok(()) };
    match classes.cmp(&(least as usize)) {
        Ordering::Equal if stable => tally.classes_equal += 1,
        Ordering::Less | Ordering::Equal if !stable => tally.classes_at_least += 1,
        _ => return Err(format!("{classes} classes by definition (stable: {stable}), {least} judged")),
    }
    Ok(())
}
