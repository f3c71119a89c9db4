//! The first word that is accepted and the first that is not. Tables are numbered in the order of their classes' first words, so the first
//! classes of either sort have them, and their last columns are found in one pass over the cells. Narrow columns stand in the order of
//! the least full ones, so that the first words are spelled in these.

use super::Table;
use super::narrow::Narrow;
use super::selection::Selection;
use ceivuron::Answer;

pub(super) fn answer(claim: &Narrow) -> Answer {
    let t = &claim.table;
    let first = |sort: bool| t.accept.iter().position(|accepts| *accepts == sort);
    let Some(good) = first(true) else { return Answer::Never };
    let Some(bad) = first(false) else { return Answer::Always };
    let from = steps(t, good.max(bad));
    Answer::Both { holds: word(&from, good, claim.sets), fails: word(&from, bad, claim.sets) }
}

/// From which class and by which column each class is met first, up to class `last`: the next that is met is always the next number.
fn steps(t: &Table, last: usize) -> Vec<(u32, u32)> {
    let mut from = vec![(0, 0)];
    let mut i = 0;
    while from.len() <= last {
        for (column, to) in t.row(i).iter().enumerate() {
            if *to as usize == from.len() {
                from.push((i, column as u32));
            }
        }
        i += 1;
    }
    from
}

/// The word by which a class is met, read off backwards, in full columns.
fn word(from: &[(u32, u32)], mut i: usize, sets: Selection) -> Vec<u32> {
    let mut word = Vec::new();
    while i != 0 {
        let (before, column) = from[i];
        word.push(sets.spread(column));
        i = before as usize;
    }
    word.reverse();
    word
}
