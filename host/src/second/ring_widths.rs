//! How many work words the call on a ring claim must ask for, and how many bytes the claim takes as which it is judged.
//!
//! A ring claim is read as a row claim about the same sets, in which `next` is said with further signs, and that is judged as in
//! `row_widths`.

use super::row_widths::{bytes_around, floor_of};
use crate::memory;
use crate::ring_part::RingPart;

/// The bytes of the longer claim about sets, with the number of sets in front.
pub fn bytes_read(claim: &RingPart, sets: u8) -> usize {
    bytes_around(sets) + in_row(claim)
}

fn in_row(claim: &RingPart) -> usize {
    match claim {
        // and, single, not, some place, and, single, not, last
        RingPart::Next(x, y) if x == y => 1 + 2 + 1 + 6 + 1 + 2 + 1 + 25,
        // and, single, and, single; not, and, not, next; not, and, not, some place, next, and not, some place, next
        RingPart::Next(..) => 6 + 6 + 2 + 10 + 10,
        RingPart::Not(c) => 1 + in_row(c),
        RingPart::And(c, d) => 1 + in_row(c) + in_row(d),
        // some, and, within the row
        RingPart::Some(_, c) => 6 + in_row(c),
        RingPart::Within(..) | RingPart::Single(_) | RingPart::Multiple(..) => claim.size(),
    }
}

/// The floor of these bytes.
pub fn floor(bytes: &[u8], most: u32) -> u128 {
    match RingPart::read(bytes) {
        Some((sets, claim)) => floor_of(bytes_read(&claim, sets), sets, most),
        None => 0,
    }
}

/// The floor as the library says it, against that of the tree.
pub fn compare(bytes: &[u8], most: u32) -> Result<(), String> {
    let (said, reckoned) = (memory::ring_floor(bytes, most), floor(bytes, most));
    if said == reckoned {
        return Ok(());
    }
    Err(format!("a floor of {said} words for {most} classes, {reckoned} by the ring claim"))
}

#[cfg(test)]
mod tests {
    use super::*;
    use crate::ring_claim::RingClaim;
    use crate::ring_part::{next, not, single};

    #[test]
    fn floors_by_hand() {
        assert_eq!(floor(RingClaim::new(1, &single(0)).bytes(), 5), 8192 + 64 * 26 + 6 * (128 + 256 + 5) + 15);
        assert_eq!(floor(RingClaim::new(2, &next(0, 1)).bytes(), 5), 8192 + 64 * 62 + 6 * (128 + 256 + 5) + 15);
        assert_eq!(floor(RingClaim::new(1, &next(0, 0)).bytes(), 0), 8192 + 64 * 63 + 128 + 256);
        assert_eq!(floor(RingClaim::new(12, &single(0)).bytes(), 5), 0);
        assert_eq!(floor(&[2, 3, 0, 1], 5), 0);
        let long = |nots: usize| (0..nots).fold(single(0), |part, _| not(part));
        assert_eq!(floor(RingClaim::new(1, &long(1024 - 26)).bytes(), 0), 8192 + 65536 + 384);
        assert_eq!(floor(RingClaim::new(1, &long(1024 - 25)).bytes(), 0), 0);
    }
}
