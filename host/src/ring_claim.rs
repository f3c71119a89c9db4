//! A ring claim as the call takes it: bytes.

use crate::ring_part::RingPart;

/// Bytes that are, or may be, a ring claim: the number of sets, 1 to 12, then the claim, sign before parts. They are those of a
/// claim, without the sign 3 of `before`.
///
/// Bytes from elsewhere are taken as they are; if they are no ring claim, that is the answer.
#[derive(Clone, Debug, PartialEq, Eq, Hash)]
pub struct RingClaim {
    bytes: Vec<u8>,
}

impl RingClaim {
    /// The claim `part` about `sets` sets. More than 12 sets, a set with a number that is not below `sets`, or more than 1,024
    /// bytes, and it is no ring claim.
    pub fn new(sets: u8, part: &RingPart) -> RingClaim {
        let mut bytes = vec![sets];
        part.write(&mut bytes);
        RingClaim { bytes }
    }

    /// The bytes as they are judged.
    pub fn bytes(&self) -> &[u8] {
        &self.bytes
    }

    /// The bytes as a tree, with the number of sets, if they are a ring claim.
    pub fn read(&self) -> Option<(u8, RingPart)> {
        RingPart::read(&self.bytes)
    }
}

impl From<Vec<u8>> for RingClaim {
    fn from(bytes: Vec<u8>) -> RingClaim {
        RingClaim { bytes }
    }
}

impl From<&[u8]> for RingClaim {
    fn from(bytes: &[u8]) -> RingClaim {
        RingClaim { bytes: bytes.to_vec() }
    }
}
