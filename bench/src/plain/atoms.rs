//! The table of a claim without parts, over the columns of its own one or two sets: the states of its machine that are reached.

use super::Table;
use super::narrow::Narrow;
use super::selection::Selection;
use ceivuron::part::Part;

/// What is left of a claim about two sets after a column that has the first or not, and the second or not.
/// 0: within, 1: single, 2: next, 3: before; 4: the first has no place and the second one; 5: the first none and the second the first
/// place alone; 6: neither has any; 7: the first has none; 8: nothing can hold any more.
fn after(q: u8, x: bool, y: bool) -> u8 {
    match (q, x, y) {
        (0, true, false) => 8,
        (0, ..) => 0,
        (1, true, _) => 7,
        (1, ..) => 1,
        (2 | 3, false, false) => q,
        (2, true, false) => 5,
        (3, true, false) => 4,
        (4, false, false) => 4,
        (4 | 5, false, true) => 6,
        (6, false, false) => 6,
        (7, false, _) => 7,
        _ => 8,
    }
}

/// The states that are reached, numbered as they are found.
pub(super) fn explore(atom: &Part) -> Narrow {
    let (start, x, y) = match *atom {
        Part::Multiple(modulus, rest, x) => return count(modulus, rest, x),
        Part::Within(x, y) => (0, x, y),
        Part::Single(x) => (1, x, x),
        Part::Next(x, y) => (2, x, y),
        Part::Before(x, y) => (3, x, y),
        _ => unreachable!("a claim without parts"),
    };
    let sets = Selection::pair(x, y);
    let (x, y, width) = (sets.place(x), sets.place(y), sets.width());
    let mut states = vec![start];
    let mut rows = Vec::with_capacity(4 * width);
    let mut i = 0;
    while i < states.len() {
        for column in 0..width {
            let to = after(states[i], column >> x & 1 == 1, column >> y & 1 == 1);
            let number = states.iter().position(|state| *state == to).unwrap_or_else(|| {
                states.push(to);
                states.len() - 1
            });
            rows.push(number as u32);
        }
        i += 1;
    }
    let accept = states.iter().map(|state| matches!(state, 0 | 6 | 7)).collect();
    Narrow { table: Table { rows, accept, width }, sets }
}

/// A state for each number of places below `modulus`, which are gone through round and round.
fn count(modulus: u8, rest: u8, x: u8) -> Narrow {
    let modulus = u32::from(modulus);
    // by the column without a place, and by that with one
    let rows = (0..modulus).flat_map(|state| [state, (state + 1) % modulus]).collect();
    let accept = (0..modulus).map(|state| state == u32::from(rest)).collect();
    Narrow { table: Table { rows, accept, width: 2 }, sets: Selection::pair(x, x) }
}
