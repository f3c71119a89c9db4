//! A row claim as the call takes it: bytes.

use crate::row_part::RowPart;

/// Bytes that are, or may be, a row claim: the number of sets, 1 to 12, then the claim, sign before parts. They are those of a
/// claim, with one more sign, 8, for the row's last place.
///
/// Bytes from elsewhere are taken as they are; if they are no row claim, that is the answer.
#[derive(Clone, Debug, PartialEq, Eq, Hash)]
pub struct RowClaim {
    bytes: Vec<u8>,
}

impl RowClaim {
    /// The claim `part` about `sets` sets. More than 12 sets, a set with a number that is not below `sets`, or more than 1,024
    /// bytes, and it is no row claim.
    pub fn new(sets: u8, part: &RowPart) -> RowClaim {
        let mut bytes = vec![sets];
        part.write(&mut bytes);
        RowClaim { bytes }
    }

    /// The bytes as they are judged.
    pub fn bytes(&self) -> &[u8] {
        &self.bytes
    }

    /// The bytes as a tree, with the number of sets, if they are a row claim.
    pub fn read(&self) -> Option<(u8, RowPart)> {
        RowPart::read(&self.bytes)
    }
}

impl From<Vec<u8>> for RowClaim {
    fn from(bytes: Vec<u8>) -> RowClaim {
        RowClaim { bytes }
    }
}

impl From<&[u8]> for RowClaim {
    fn from(bytes: &[u8]) -> RowClaim {
        RowClaim { bytes: bytes.to_vec() }
    }
}
