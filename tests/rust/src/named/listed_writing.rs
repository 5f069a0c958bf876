//! Numbers beside a list, as they are written: a listed one is, an unlisted one is refused, and so is kind 6.

use super::books::{enumeration, set, OCTET};
use super::listed::{few, m_by_few, many, over, CHAR, UINT16, UINT64};
use super::messages::{m, m_under_a, rooted};
use super::writing::draft;
use super::{Case, Expected};
use plain::{refusal, Record, Refusal};

pub fn cases() -> Vec<Case> {
    [enumeration_cases(), set_cases(), m_cases()].into_iter().flatten().collect()
}

const ROOM: usize = 40;

/// One record for a book of one field, and the octets that it is written to, or the refusal's number.
fn alone(name: &'static str, book: Vec<u8>, record: Record, written: Result<&str, u64>) -> Case {
    let written = written.map(|octets| rooted(octets, 0, "")).map_err(|number| refusal(number, 0));
    Case { name, book, message: Vec::new(), expected: Expected::Written(draft(&[record], &[]), ROOM, written) }
}

fn enumeration_cases() -> Vec<Case> {
    let list = enumeration(4, &[65, 127, 200, 255, 256, 65534, 65535]);
    let by = |kind, presence| over(&list, kind, presence);
    vec![
        alone("writing a listed char", by(CHAR, 0), [0, 65, 0], Ok("41")),
        alone("writing a listed uint8", by(OCTET, 0), [0, 200, 0], Ok("c8")),
        alone("writing a listed uint16", by(UINT16, 0), [0, 65534, 0], Ok("fe ff")),
        alone("writing an unlisted char: 52", by(CHAR, 0), [0, 66, 0], Err(52)),
        alone("writing an unlisted uint8: 52", by(OCTET, 0), [0, 199, 0], Err(52)),
        alone("writing an unlisted uint16: 52", by(UINT16, 1), [0, 257, 0], Err(52)),
        alone("writing 127 as a char that lists it: 52", by(CHAR, 0), [0, 127, 0], Err(52)),
        alone("writing 255 as a uint8 that lists it, its null: 52", by(OCTET, 1), [0, 255, 0], Err(52)),
        alone("writing 256 as a uint8 that lists it: 52", by(OCTET, 0), [0, 256, 0], Err(52)),
        alone("writing 65535 as a uint16 that lists it, its null: 52", by(UINT16, 1), [0, 65535, 0], Err(52)),
        alone("writing 65536 more than a listed number: 52", by(UINT16, 0), [0, 65536 + 65, 0], Err(52)),
        alone("writing null for a field that lists it", by(OCTET, 1), [1, 0, 0], Ok("ff")),
        alone("writing null for a required field that lists it: 52", by(OCTET, 0), [1, 0, 0], Err(52)),
        alone("writing kind 6 of a listed number: 51", by(OCTET, 0), [6, 200, 0], Err(51)),
        alone("writing kind 6 of an unlisted number: 51", by(OCTET, 0), [6, 199, 0], Err(51)),
        alone("writing: 51 before 52 of an unlisted number", by(OCTET, 0), [0, 199, 1], Err(51)),
    ]
}

fn set_cases() -> Vec<Case> {
    let by = |kind, presence| over(&set(4, &[0, 2, 7]), kind, presence);
    let high = || over(&set(4, &[63]), UINT64, 0);
    vec![
        alone("writing a set's 0", by(OCTET, 0), [0, 0, 0], Ok("00")),
        alone("writing all listed bits", by(UINT16, 0), [0, 0x85, 0], Ok("85 00")),
        alone("writing one unlisted bit: 52", by(OCTET, 0), [0, 2, 0], Err(52)),
        alone("writing all listed bits and one unlisted: 52", by(UINT16, 0), [0, 0x8085, 0], Err(52)),
        alone("writing null for a set", by(OCTET, 1), [1, 0, 0], Ok("ff")),
        alone("writing all ones for a set, its null: 52", by(OCTET, 1), [0, 255, 0], Err(52)),
        alone("writing the highest bit of a uint64", high(), [0, 1 << 63, 0], Ok("00 00 00 00 00 00 00 80")),
        alone("writing all bits of a uint64 but the lowest: 52", high(), [0, u64::MAX - 1, 0], Err(52)),
        alone("writing kind 6 of a set's 0: 51", by(OCTET, 0), [6, 0, 0], Err(51)),
    ]
}

/// M's listing with a number that the lists have, 0x1e8, in its first record, and this other record.
fn with(place: usize, record: Record) -> Vec<Record> {
    let mut listing = m_under_a();
    (listing[0], listing[place]) = ([0, 0x1e8, 0], record);
    listing
}

fn m_cases() -> Vec<Case> {
    let case = |name, book, listing: &[Record], room, written: Result<Vec<u8>, Refusal>| Case {
        name,
        book,
        message: Vec::new(),
        expected: Expected::Written(draft(listing, &m()), room, written),
    };
    let no = |number, place| Err(refusal(number, place));
    let (listed, unlisted) = (with(4, [0, 1, 0]), with(4, [0, 3, 0]));
    let mut of_listed = m();
    (of_listed[13], of_listed[26]) = (1, 1);
    let newer = [&m()[..6], &[1, 0], &m()[8..]].concat();
    vec![
        case("writing M by lists that lack two of its numbers: 52", few(), &m_under_a(), ROOM, no(52, 0)),
        case("writing what these lists make of M: 51", few(), &m_by_few(), ROOM, no(51, 0)),
        case("writing an unlisted value in the second entry: 52 at 4", few(), &unlisted, ROOM, no(52, 4)),
        case("writing kind 6 in the second entry: 51 at 4", few(), &with(4, [6, 3, 0]), ROOM, no(51, 4)),
        case("writing: 55 after 52 of an unlisted value", few(), &unlisted, 0, no(52, 4)),
        case("writing listed numbers in their place", few(), &listed, ROOM, Ok(of_listed)),
        case("writing listed numbers into 31 octets: 55", few(), &listed, 31, no(55, 0)),
        case("writing M by lists that have all of its numbers", many(), &m_under_a(), ROOM, Ok(newer)),
    ]
}
