//! How many work words the call must ask for, reckoned from a claim's tree.
//!
//! A table of a part has a column for each choice among the sets that the part mentions, so the memory goes by the most sets
//! that any part does.

use super::reach::free_sets;
use crate::memory;
use crate::part::Part;

/// The most sets that any part of the claim mentions.
pub fn widest(c: &Part) -> u32 {
    let mentioned = || free_sets(c).count_ones();
    match c {
        Part::Not(c) => widest(c),
        Part::And(c, d) => mentioned().max(widest(c)).max(widest(d)),
        Part::Some(_, c) => mentioned().max(widest(c)),
        _ => mentioned(),
    }
}

/// The floor of these bytes. Bytes that are no claim have no part.
pub fn floor(bytes: &[u8], most: u32) -> u128 {
    let sets = Part::read(bytes).map_or(0, |(_, claim)| widest(&claim));
    let (s, n) = (bytes.len() as u128, u128::from(most));
    8192 + 64 * s + (n + 1) * (16 * (1 << sets) + 256 + n)
}

/// The floor as the library says it, against that of the tree.
pub fn compare(bytes: &[u8], most: u32) -> Result<(), String> {
    let (said, reckoned) = (memory::floor(bytes, most), floor(bytes, most));
    if said == reckoned {
        return Ok(());
    }
    Err(format!("a floor of {said} words for {most} classes, {reckoned} by the claim's parts"))
}

#[cfg(test)]
mod tests {
    use super::*;
    use crate::part::{and, before, every, multiple, next, not, single, some, within};

    #[test]
    fn the_widest_part_counts() {
        assert_eq!(widest(&single(7)), 1);
        assert_eq!(widest(&multiple(2, 1, 7)), 1);
        assert_eq!(widest(&within(3, 3)), 1);
        assert_eq!(widest(&not(next(11, 0))), 2);
        assert_eq!(widest(&and(within(0, 1), within(1, 2))), 3);
        assert_eq!(widest(&and(within(0, 1), within(2, 3))), 4);
        // a part may mention more than the whole
        assert_eq!(widest(&some(1, some(0, before(0, 1)))), 2);
        assert_eq!(widest(&and(single(5), some(2, and(before(0, 2), before(2, 1))))), 3);
        // a set that is not mentioned, and one that is another inside
        assert_eq!(widest(&some(4, single(0))), 1);
        assert_eq!(widest(&and(single(4), every(4, within(0, 4)))), 2);
        let all = (1..12).map(|x| within(x - 1, x)).reduce(and);
        assert_eq!(all.map(|claim| widest(&claim)), Some(12));
    }

    #[test]
    fn the_floor_by_its_parts() {
        // some 2 (0 before 2 and 2 before 1), of three sets and of twelve
        assert_eq!(floor(&[3, 6, 2, 5, 3, 0, 2, 3, 2, 1], 11), 13572);
        assert_eq!(floor(&[12, 6, 2, 5, 3, 0, 2, 3, 2, 1], 11), 13572);
        assert_eq!(floor(&[], 0), 8464);
        assert_eq!(floor(&[12, 1, 12], 0), 8656);
    }
}
