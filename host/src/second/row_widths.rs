//! How many work words the call on a row claim must ask for, and how many bytes the claim takes as which it is judged.
//!
//! A row claim about k sets is read as two claims about one set more, the row, at least 3: that this is a row, within which the k sets are,
//! and that the row claim holds; and the same with its opposite. The call asks for what it asks for of the longer of the two, the second,
//! where a table has a column for each choice of all its sets, and for three words more for each class. It asks for none where there is
//! no such claim.

use crate::memory;
use crate::row_part::RowPart;

/// The most bytes that a claim may take.
pub const LIMIT: usize = 1024;

/// The bytes of the second claim, with the number of sets in front.
pub fn bytes_read(claim: &RowPart, sets: u8) -> usize {
    bytes_around(sets) + in_row(claim)
}

/// The bytes of the second claim without those of the row claim.
pub(super) fn bytes_around(sets: u8) -> usize {
    // each set is within the row: and, within; no place of the row has before it one that is none
    let is_row = 4 * usize::from(sets) + 17;
    // the number of sets, and, not
    3 + is_row
}

fn in_row(claim: &RowPart) -> usize {
    match claim {
        // the set is within the row, and if the row has a place, the set has one behind which comes none of the row
        RowPart::Last(_) => 25,
        RowPart::Not(c) => 1 + in_row(c),
        RowPart::And(c, d) => 1 + in_row(c) + in_row(d),
        // some, and, within the row
        RowPart::Some(_, c) => 6 + in_row(c),
        sign => sign.size(),
    }
}

/// The floor of these bytes.
pub fn floor(bytes: &[u8], most: u32) -> u128 {
    match RowPart::read(bytes) {
        Some((sets, claim)) => floor_of(bytes_read(&claim, sets), sets, most),
        None => 0,
    }
}

/// The floor where the second claim has so many bytes, and the row claim is about so many sets.
pub(super) fn floor_of(read: usize, sets: u8, most: u32) -> u128 {
    if sets == 12 || read > LIMIT {
        return 0;
    }
    let n = u128::from(most);
    8192 + 64 * read as u128 + (n + 1) * ((16 << (sets + 1).max(3)) + 256 + n) + 3 * n
}

/// The floor as the library says it, against that of the tree.
pub fn compare(bytes: &[u8], most: u32) -> Result<(), String> {
    let (said, reckoned) = (memory::row_floor(bytes, most), floor(bytes, most));
    if said == reckoned {
        return Ok(());
    }
    Err(format!("a floor of {said} words for {most} classes, {reckoned} by the row claim"))
}

#[cfg(test)]
mod tests {
    use super::*;
    use crate::row_claim::RowClaim;
    use crate::row_part::{and, last, not, single, some};

    #[test]
    fn bytes_by_hand() {
        // 2 sets, and, set 0 within the row, no hole, not, single
        assert_eq!(bytes_read(&single(0), 1), 1 + 1 + 4 + 17 + 1 + 2);
        assert_eq!(bytes_read(&not(and(some(1, last(1)), last(0))), 2), 1 + 1 + 8 + 17 + 1 + 1 + 1 + 6 + 25 + 25);
    }

    #[test]
    fn floors_by_hand() {
        assert_eq!(floor(RowClaim::new(1, &single(0)).bytes(), 5), 8192 + 64 * 26 + 6 * (128 + 256 + 5) + 15);
        assert_eq!(floor(RowClaim::new(11, &single(0)).bytes(), 0), 8192 + 64 * 66 + 65536 + 256);
        assert_eq!(floor(RowClaim::new(12, &single(0)).bytes(), 5), 0);
        assert_eq!(floor(&[1, 9], 5), 0);
        let long = |nots: usize| (0..nots).fold(single(0), |part, _| not(part));
        assert_eq!(floor(RowClaim::new(1, &long(1024 - 26)).bytes(), 0), 8192 + 65536 + 384);
        assert_eq!(floor(RowClaim::new(1, &long(1024 - 25)).bytes(), 0), 0);
    }
}
