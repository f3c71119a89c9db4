//! Claims about sets as numbers: place i has the worth 2^i, so that the least bit comes first.

use ceivuron::part::{Part, and, before, every, next, not, or, single, some, within};

use super::{Sample, alike, all, either};

/// Set 2 is the sum of sets 0 and 1, and set 3 has the places to which something is carried.
pub fn adder() -> Sample {
    Sample { sets: 6, part: sum([0, 1, 2], 3, [4, 5]) }
}

/// Adding in either order comes to the same: where set 3 is 0 + 1 and set 4 is 3 + 2, and set 5 is 1 + 2, set 4 is 0 + 5.
pub fn adders() -> Sample {
    let add = |x: u8, y: u8, z: u8| some(6, sum([x, y, z], 6, [7, 8]));
    let sums = all([add(0, 1, 3), add(3, 2, 4), add(1, 2, 5)]);
    Sample { sets: 9, part: not(and(sums, not(add(0, 5, 4)))) }
}

/// Of one place, and of each two that follow one another.
fn sum([x, y, z]: [u8; 3], carry: u8, [p, q]: [u8; 2]) -> Part {
    let has = |set| within(p, set);
    let bits = alike(has(z), either(has(x), either(has(y), has(carry))));
    let two = or(and(has(x), has(y)), and(has(carry), or(has(x), has(y))));
    let carried = every(q, or(not(next(p, q)), alike(within(q, carry), two)));
    let first = or(some(q, next(q, p)), not(has(carry)));
    every(p, or(not(single(p)), all([bits, carried, first])))
}

/// Each of so many sets is a smaller number than the set behind it.
pub fn orders(sets: u8) -> Sample {
    let places = [sets, sets + 1];
    Sample { sets: sets + 2, part: all((1..sets).map(|x| smaller(x - 1, x, places))) }
}

/// That is a strict order: of no set it holds of the set itself, and where it holds of 0 and 1 and of 1 and 2, it does of 0 and 2.
pub fn order() -> Sample {
    let below = |x, y| smaller(x, y, [3, 4]);
    let transitive = not(all([below(0, 1), below(1, 2), not(below(0, 2))]));
    Sample { sets: 5, part: and(not(below(0, 0)), transitive) }
}

/// There is a place that y has and x has not, and at each place further on they are alike.
fn smaller(x: u8, y: u8, [p, q]: [u8; 2]) -> Part {
    let alike_behind = every(q, or(not(before(p, q)), alike(within(q, x), within(q, y))));
    some(p, all([single(p), within(p, y), not(within(p, x)), alike_behind]))
}
