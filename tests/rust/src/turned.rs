//! A book for the other byte order, and a message as it is by that book: every number of it is turned, and no other
//! octet.

use crate::wire;
use plain::byte_order::{BIG, LITTLE};
use plain::{word, Book};

/// Where a book has its byte order.
const AT: usize = 10;

/// The book for messages of the other byte order; as it is where it has none.
pub fn book(octets: &[u8]) -> Vec<u8> {
    let mut octets = octets.to_vec();
    if octets.len() >= AT + 2 {
        let other = match word(&octets, AT) {
            LITTLE => BIG,
            BIG => LITTLE,
            none => none,
        };
        octets[AT..AT + 2].copy_from_slice(&other.to_le_bytes());
    }
    octets
}

/// The message with each of its numbers turned. Where the book refuses it, each that is read before it is refused.
pub fn message(book: &Book, octets: &[u8]) -> Vec<u8> {
    let mut turned = octets.to_vec();
    for number in wire::numbers(book, octets).all {
        turned[number].reverse();
    }
    turned
}
