//! In which order the octets of a message's numbers stand. A book says it for all of its messages.

use crate::Book;

pub const LITTLE: u16 = 0;
pub const BIG: u16 = 1;

#[derive(Clone, Copy, Debug, PartialEq, Eq)]
pub enum ByteOrder {
    /// The least significant octet first.
    Little,
    /// The most significant octet first.
    Big,
}

impl ByteOrder {
    /// The number that the octets are.
    pub fn number(self, octets: &[u8]) -> u64 {
        let with_next = |number, &octet: &u8| number << 8 | u64::from(octet);
        match self {
            ByteOrder::Little => octets.iter().rev().fold(0, with_next),
            ByteOrder::Big => octets.iter().fold(0, with_next),
        }
    }

    /// So many octets, which are the number.
    pub fn octets(self, number: u64, count: usize) -> Vec<u8> {
        match self {
            ByteOrder::Little => number.to_le_bytes()[..count].to_vec(),
            ByteOrder::Big => number.to_be_bytes()[8 - count..].to_vec(),
        }
    }

    /// The 16-bit number at `at`.
    pub fn number16(self, octets: &[u8], at: usize) -> u16 {
        let two = [octets[at], octets[at + 1]];
        match self {
            ByteOrder::Little => u16::from_le_bytes(two),
            ByteOrder::Big => u16::from_be_bytes(two),
        }
    }

    /// The octets of a 16-bit number.
    pub fn octets16(self, number: u16) -> [u8; 2] {
        match self {
            ByteOrder::Little => number.to_le_bytes(),
            ByteOrder::Big => number.to_be_bytes(),
        }
    }
}

impl Book {
    /// Of a book whose head holds.
    pub fn byte_order(&self) -> ByteOrder {
        if self.byte_order == BIG {
            ByteOrder::Big
        } else {
            ByteOrder::Little
        }
    }
}
