//! A claim as the call takes it: bytes.

use crate::part::Part;

/// Bytes that are, or may be, a claim: the number of sets, 1 to 12, then the claim, sign before parts.
///
/// Bytes from elsewhere are taken as they are; if they are no claim, that is the answer.
#[derive(Clone, Debug, PartialEq, Eq, Hash)]
pub struct Claim {
    bytes: Vec<u8>,
}

impl Claim {
    /// The claim `part` about `sets` sets. More than 12 sets, a set with a number that is not below `sets`, or more
    /// than 1,024 bytes, and it is no claim.
    pub fn new(sets: u8, part: &Part) -> Claim {
        let mut bytes = vec![sets];
        part.write(&mut bytes);
        Claim { bytes }
    }

    /// The bytes as they are judged.
    pub fn bytes(&self) -> &[u8] {
        &self.bytes
    }

    /// The bytes as a tree, with the number of sets, if they are a claim.
    pub fn read(&self) -> Option<(u8, Part)> {
        Part::read(&self.bytes)
    }
}

impl From<Vec<u8>> for Claim {
    fn from(bytes: Vec<u8>) -> Claim {
        Claim { bytes }
    }
}

impl From<&[u8]> for Claim {
    fn from(bytes: &[u8]) -> Claim {
        Claim { bytes: bytes.to_vec() }
    }
}
