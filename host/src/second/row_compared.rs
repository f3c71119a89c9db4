//! The proved call on row claims and the second program, held against each other.

use super::compared::Difference;
use super::random::Random;
use super::row_automata::Automaton;
use super::row_form::{depth, renamed};
use super::row_holds::{places_within, rows};
use super::row_tally::RowTally;
use crate::answer::RowAnswer;
use crate::judge::Judge;
use crate::row_claim::RowClaim;
use crate::row_part::RowPart;

/// The most classes that are allowed here.
pub(super) const MOST: u32 = 1024;

/// Rows of up to so many places are looked at by definition, in no more than so many steps.
pub(super) const PLACES: u32 = 6;
pub(super) const STEPS: u64 = 1 << 20;

/// A row claim about one to four sets, of a sort of which there are not enough yet: at most three in ten hold always, three in ten
/// never; most without `some` are passed over.
pub fn draw(random: &mut Random, tally: &RowTally, count: usize) -> (u8, RowPart) {
    loop {
        let sets = 1 + random.below(4) as u8;
        let signs = 2 + random.below(16);
        let nested = [0, 1, 1, 2, 2, 3, 3, 4][random.below(8)];
        let claim = random.counting_row_claim(sets, signs, nested);
        if depth(&claim) == 0 && !random.one_in(4) {
            continue;
        }
        let Some(automaton) = Automaton::of(&claim, sets) else { return (sets, claim) };
        let fair = match (automaton.first(true), automaton.first(false)) {
            (_, None) => tally.always * 10 < count * 3,
            (None, _) => tally.never * 10 < count * 3,
            _ => tally.both * 10 < count * 6,
        };
        if fair {
            return (sets, claim);
        }
    }
}

/// Compares everything on one row claim about `sets` sets, which the call gets as one about up to eleven.
pub fn compare(
    judge: &mut Judge,
    random: &mut Random,
    sets: u8,
    claim: &RowPart,
    tally: &mut RowTally,
) -> Result<(), Difference> {
    tally.claims += 1;
    tally.note_form(claim);
    let (of, numbers) = random.row_numbers(sets);
    let wide = RowClaim::new(of, &renamed(claim, &numbers));
    let said = judge.judge_row(&wide, MOST).map_err(|refused| refused.to_string())?;
    let automaton = Automaton::of(claim, sets);
    let (Some(automaton), true) = (automaton, said != RowAnswer::Many) else {
        tally.many += 1;
        return Ok(());
    };
    compare_rows(claim, &automaton, tally)?;
    let first = |wanted| automaton.first(wanted).map(|row| widened(&row, &numbers));
    let expected = match (first(true), first(false)) {
        (Some(holds), Some(fails)) => {
            tally.both += 1;
            tally.longest = tally.longest.max(holds.len()).max(fails.len());
            RowAnswer::Both { holds, fails }
        }
        (_, None) => {
            tally.always += 1;
            RowAnswer::Always
        }
        (None, _) => {
            tally.never += 1;
            RowAnswer::Never
        }
    };
    if said != expected {
        return Err(format!("of {:02x?} {said:?} judged, {expected:?} by definition", wide.bytes()));
    }
    Ok(())
}

/// The columns of a row, with each set's places under its new number.
pub(super) fn widened(row: &[u32], numbers: &[u8]) -> Vec<u32> {
    let wide =
        |column: &u32| numbers.iter().enumerate().fold(0, |wide, (x, number)| wide | (column >> x & 1) << number);
    row.iter().map(wide).collect()
}

/// The automaton on all short rows, against the definition.
fn compare_rows(claim: &RowPart, automaton: &Automaton, tally: &mut RowTally) -> Result<(), Difference> {
    let places = places_within(claim, PLACES, STEPS);
    tally.places[places as usize] += 1;
    for (row, holds) in rows(claim, places) {
        tally.rows += 1;
        if automaton.accepts(&row) != holds {
            return Err(format!("{row:?} accepted: {}, by definition: {holds}", !holds));
        }
    }
    Ok(())
}
