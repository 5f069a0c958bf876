//! The four readings that look right. Each case's right answer differs from the tempting one.

use super::books::{a, b};
use super::messages::{b_under_a, m, m_under_a, m_under_b, of_b, MINUS_5};
use super::{octets, Case, Expected};
use plain::Record;

/// M with another group in the place of its own.
fn m_with_group(group: &str) -> Vec<u8> {
    let m = m();
    [&m[..20], &octets(group), &m[28..]].concat()
}

pub fn cases() -> Vec<Case> {
    let case = |name, book, message, listing: Vec<Record>| Case {
        name,
        book,
        message,
        expected: Expected::Listing(Ok(listing)),
    };
    // By the declared length of 2 the second entry would begin at the first one's surplus octets and hold 0.
    let long_entries = m_with_group("04 00 02 00 | 01 00 00 00 | 03 00 00 00");
    let mut stepped = m_under_a();
    stepped[5] = [2, 34, 2];
    // The data would be looked for in the dimension, and have length 2 and octets left over.
    let no_entries = m_with_group("02 00 00 00");
    let passed = vec![[0, 1000, 0], [0, MINUS_5, 0], [4, 0, 0], [2, 26, 2]];
    vec![
        case("presence by version, not by block length", b(), m(), m_under_b()),
        case("entries stepped by the wire's block length", a(), long_entries, stepped),
        case("root data after the surplus groups", a(), of_b(), b_under_a()),
        case("a dimension with zero entries is passed", a(), no_entries, passed),
    ]
}
