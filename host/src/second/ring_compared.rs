//! The proved call on ring claims and the second program, held against each other.

use super::compared::Difference;
use super::random::Random;
use super::ring_automata;
use super::ring_holds::{holds, rings, turned};
use super::ring_tally::{RingTally, says_next};
use super::row_automata::Automaton;
use super::row_compared::{MOST, PLACES, STEPS, widened};
use super::row_form::{depth, renamed};
use super::row_holds::{places_within, row_sets};
use crate::answer::{RingAnswer, RowAnswer};
use crate::judge::Judge;
use crate::ring_claim::RingClaim;
use crate::ring_part::RingPart;
use crate::row_claim::RowClaim;
use crate::row_part::RowPart;

/// A ring claim about one to four sets, of a sort of which there are not enough yet: at most three in ten hold always, three in ten
/// never; most without `some` or without `next` of two sets are passed over.
pub fn draw(random: &mut Random, tally: &RingTally, count: usize) -> (u8, RingPart) {
    loop {
        let sets = 1 + random.below(4) as u8;
        let signs = 2 + random.below(16);
        let nested = [0, 1, 1, 2, 2, 3, 3, 4][random.below(8)];
        let claim = random.ring_claim(sets, signs, nested);
        let is_plain = depth(&RowPart::from(&claim)) == 0 || !says_next(&claim);
        if is_plain && !random.one_in(4) {
            continue;
        }
        let Some(automaton) = ring_automata::of(&claim, sets) else { return (sets, claim) };
        let fair = match (automaton.first(true), automaton.first(false)) {
            (_, None) => tally.always * 10 < count * 3,
            (None, _) => tally.never * 10 < count * 3,
            _ => tally.both * 10 < count * 6,
        };
        if fair {
            return (sets, claim);
        }
    }
}

/// Compares everything on one ring claim about `sets` sets, which the call gets as one about up to eleven.
pub fn compare(
    judge: &mut Judge,
    random: &mut Random,
    sets: u8,
    claim: &RingPart,
    tally: &mut RingTally,
) -> Result<(), Difference> {
    tally.claims += 1;
    tally.note_form(claim);
    let (of, numbers) = random.row_numbers(sets);
    let row = renamed(&RowPart::from(claim), &numbers);
    let wide = RingClaim::new(of, &RingPart::of_row(&row).expect("the signs of a ring claim"));
    let said = judge.judge_ring(&wide, MOST).map_err(|refused| refused.to_string())?;
    let automaton = ring_automata::of(claim, sets);
    let (Some(automaton), true) = (automaton, said != RingAnswer::Many) else {
        tally.many += 1;
        return Ok(());
    };
    compare_rings(claim, &automaton, tally)?;
    let first = |wanted| automaton.first(wanted).map(|ring| widened(&ring, &numbers));
    let expected = match (first(true), first(false)) {
        (Some(holds), Some(fails)) => {
            tally.both += 1;
            tally.longest = tally.longest.max(holds.len()).max(fails.len());
            RingAnswer::Both { holds, fails }
        }
        (_, None) => {
            tally.always += 1;
            RingAnswer::Always
        }
        (None, _) => {
            tally.never += 1;
            RingAnswer::Never
        }
    };
    if said != expected {
        return Err(format!("of {:02x?} {said:?} judged, {expected:?} by definition", wide.bytes()));
    }
    let of_rows = judge.judge_row(&RowClaim::new(of, &row), MOST).map_err(|refused| refused.to_string())?;
    tally.unlike_rows += usize::from(!is_alike(&said, &of_rows));
    compare_turned(&said)
}

/// Whether the row claim with the same signs has the same answer, or one that cannot be told.
fn is_alike(said: &RingAnswer, of_rows: &RowAnswer) -> bool {
    match (said, of_rows) {
        (RingAnswer::Both { holds: u, fails: v }, RowAnswer::Both { holds, fails }) => (u, v) == (holds, fails),
        (RingAnswer::Always, answer) => matches!(answer, RowAnswer::Always | RowAnswer::Many),
        (RingAnswer::Never, answer) => matches!(answer, RowAnswer::Never | RowAnswer::Many),
        (_, answer) => *answer == RowAnswer::Many,
    }
}

/// The automaton on all short rings, against the definition; and the definition on each of these turned by a place, which goes round
/// to every ring that is it turned.
fn compare_rings(claim: &RingPart, automaton: &Automaton, tally: &mut RingTally) -> Result<(), Difference> {
    let places = places_within(&RowPart::from(claim), PLACES, STEPS);
    tally.places[places as usize] += 1;
    for (ring, of_ring) in rings(claim, places) {
        tally.rings += 1;
        if automaton.accepts(&ring) != of_ring {
            return Err(format!("{ring:?} accepted: {}, by definition: {of_ring}", !of_ring));
        }
        if holds(claim, ring.len() as u32, &mut row_sets(&turned(&ring))) != of_ring {
            return Err(format!("{ring:?}: {of_ring} by definition, and not so once it is turned"));
        }
    }
    Ok(())
}

/// A claim that holds of a ring holds of it turned, so a first ring is no later than itself turned.
fn compare_turned(said: &RingAnswer) -> Result<(), Difference> {
    let RingAnswer::Both { holds, fails } = said else { return Ok(()) };
    for first in [holds, fails] {
        let mut ring = first.clone();
        for _ in 0..first.len() {
            ring = turned(&ring);
            if ring < *first {
                return Err(format!("{first:?} judged first, and turned it is {ring:?}"));
            }
        }
    }
    Ok(())
}
