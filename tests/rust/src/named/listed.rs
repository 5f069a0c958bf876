//! Values beside a list, as they are read: listed and unlisted ones, and null and values out of range, which the list
//! may have as well.

use super::books::{self, a, enumeration, field, fields, set, with_lists, OCTET};
use super::messages::{m, m_under_a, rooted};
use super::{Case, Expected};
use plain::{refusal, Block, Book, Field, Group, NameList, Place, Record, Refusal, Template};
use std::slice;

pub const CHAR: u16 = 0;
pub const UINT16: u16 = 4;
const UINT32: u16 = 6;
pub const UINT64: u16 = 8;

pub fn cases() -> Vec<Case> {
    [enumeration_cases(), set_cases(), wide_cases(), every_octet_cases(), m_cases(), field_cases()]
        .into_iter()
        .flatten()
        .collect()
}

/// A book whose template 1 is one field of this type and presence, with the list.
pub fn over(list: &NameList, kind: u16, presence: u16) -> Vec<u8> {
    let field = Field { list: list.id + 1, ..field(kind, 0, presence) };
    with_lists(slice::from_ref(list), fields(field.octets() as u16, vec![field]))
}

/// The octets of such a field, and what they are read as.
fn read(name: &'static str, book: Vec<u8>, octets: &str, record: Record) -> Case {
    Case { name, book, message: rooted(octets, 0, ""), expected: Expected::Listing(Ok(vec![record])) }
}

/// Of each type values in its range, its null, and values out of its range.
fn enumeration_cases() -> Vec<Case> {
    let list = enumeration(4, &[0, 31, 65, 66, 127, 200, 255, 256, 65534, 65535]);
    let by = |kind, presence| over(&list, kind, presence);
    let one = |presence| over(&enumeration(4, &[1]), OCTET, presence);
    vec![
        read("a listed char: a number", by(CHAR, 0), "41", [0, 65, 0]),
        read("an unlisted char: kind 6", by(CHAR, 0), "43", [6, 67, 0]),
        read("the least char, unlisted: kind 6", by(CHAR, 0), "20", [6, 32, 0]),
        read("the greatest char, unlisted: kind 6", by(CHAR, 0), "7e", [6, 126, 0]),
        read("a listed null in an optional char: null", by(CHAR, 1), "00", [1, 0, 0]),
        read("a listed null in a required char: out of range", by(CHAR, 0), "00", [5, 0, 0]),
        read("a listed char of 31: out of range", by(CHAR, 0), "1f", [5, 31, 0]),
        read("a listed char of 127: out of range", by(CHAR, 1), "7f", [5, 127, 0]),
        read("a listed char of 200: out of range", by(CHAR, 1), "c8", [5, 200, 0]),
        read("an unlisted char of 30: out of range", by(CHAR, 0), "1e", [5, 30, 0]),
        read("a listed uint8: a number", by(OCTET, 0), "c8", [0, 200, 0]),
        read("a listed uint8 of 0: a number", by(OCTET, 0), "00", [0, 0, 0]),
        read("an unlisted uint8: kind 6", by(OCTET, 0), "c9", [6, 201, 0]),
        read("a uint8 that a listed word ends in: kind 6", by(OCTET, 0), "fe", [6, 254, 0]),
        read("a listed null in an optional uint8: null", by(OCTET, 1), "ff", [1, 0, 0]),
        read("a listed null in a required uint8: out of range", by(OCTET, 0), "ff", [5, 255, 0]),
        read("an unlisted null in an optional uint8: null", one(1), "ff", [1, 0, 0]),
        read("an unlisted null in a required uint8: out of range", one(0), "ff", [5, 255, 0]),
        read("a listed uint16: a number", by(UINT16, 0), "00 01", [0, 256, 0]),
        read("a listed uint16 of 65534: a number", by(UINT16, 0), "fe ff", [0, 65534, 0]),
        read("a uint16 of two listed octets: kind 6", by(UINT16, 0), "41 42", [6, 0x4241, 0]),
        read("a listed null in an optional uint16: null", by(UINT16, 1), "ff ff", [1, 0, 0]),
        read("a listed null in a required uint16: out of range", by(UINT16, 0), "ff ff", [5, 65535, 0]),
    ]
}

/// A set of the first bits.
fn all(kind: u16, presence: u16, bits: u16) -> Vec<u8> {
    over(&set(4, &(0..bits).collect::<Vec<_>>()), kind, presence)
}

fn set_cases() -> Vec<Case> {
    let by = |bits: &[u16]| over(&set(4, bits), OCTET, 0);
    let three = || by(&[0, 2, 7]);
    vec![
        read("a set's 0: a number", three(), "00", [0, 0, 0]),
        read("all listed bits: a number", three(), "85", [0, 0x85, 0]),
        read("some listed bits: a number", three(), "81", [0, 0x81, 0]),
        read("one unlisted bit: kind 6", three(), "02", [6, 2, 0]),
        read("all listed bits and one unlisted: kind 6", three(), "8d", [6, 0x8d, 0]),
        read("the highest bit of a uint8, listed: a number", by(&[7]), "80", [0, 0x80, 0]),
        read("the highest bit of a uint8, unlisted: kind 6", by(&[6]), "80", [6, 0x80, 0]),
        read("the lowest bit, unlisted: kind 6", by(&[7]), "01", [6, 1, 0]),
        read("all ones in an optional uint8, all listed: null", all(OCTET, 1, 8), "ff", [1, 0, 0]),
        read("all ones in a required uint8, all listed: out of range", all(OCTET, 0, 8), "ff", [5, 255, 0]),
        read("all ones in an optional uint8, one listed: null", all(OCTET, 1, 1), "ff", [1, 0, 0]),
        read("all ones in a required uint8, one listed: out of range", all(OCTET, 0, 1), "ff", [5, 255, 0]),
    ]
}

const BIT_31: &str = "00 00 00 80";
const BIT_32: &str = "00 00 00 00 01 00 00 00";
const BIT_63: &str = "00 00 00 00 00 00 00 80";
const BITS_1_TO_63: &str = "fe ff ff ff ff ff ff ff";
const ONES: &str = "ff ff ff ff ff ff ff ff";

fn wide_cases() -> Vec<Case> {
    let by = |kind, bits: &[u16]| over(&set(4, bits), kind, 0);
    let (high, ones) = (1 << 63, u64::MAX);
    vec![
        read("the highest bit of a uint16, listed: a number", by(UINT16, &[15]), "00 80", [0, 0x8000, 0]),
        read("the highest bit of a uint16, unlisted: kind 6", by(UINT16, &[7]), "80 80", [6, 0x8080, 0]),
        read("the highest bit of a uint32, listed: a number", by(UINT32, &[31]), BIT_31, [0, 1 << 31, 0]),
        read("the highest bit of a uint32, unlisted: kind 6", by(UINT32, &[30]), BIT_31, [6, 1 << 31, 0]),
        read("bit 32 of a uint64, listed: a number", by(UINT64, &[32]), BIT_32, [0, 1 << 32, 0]),
        read("bit 32 of a uint64, unlisted: kind 6", by(UINT64, &[0, 31]), BIT_32, [6, 1 << 32, 0]),
        read("the highest bit of a uint64, listed: a number", by(UINT64, &[63]), BIT_63, [0, high, 0]),
        read("the highest bit of a uint64, unlisted: kind 6", by(UINT64, &[62]), BIT_63, [6, high, 0]),
        read("all bits of a uint64 but the lowest: a number", all(UINT64, 0, 64), BITS_1_TO_63, [0, ones - 1, 0]),
        read("all ones in an optional uint64, all listed: null", all(UINT64, 1, 64), ONES, [1, 0, 0]),
        read("all ones in a required uint64, all listed: out of range", all(UINT64, 0, 64), ONES, [5, ones, 0]),
    ]
}

/// The 256 octets beside a list, each in an entry; those in range are listed or not.
fn every_octet(name: &'static str, list: NameList, kind: u16, range: [u64; 2], listed: fn(u64) -> bool) -> Case {
    let named = Field { list: list.id + 1, ..field(kind, 0, 0) };
    let group = Group { id: 1, since: 0, block: fields(1, vec![named]) };
    let book = with_lists(&[list], Block { groups: vec![group], ..Block::default() });
    let header = [0, 1, 7, 0, 1, 0, 1, 256].iter().flat_map(|number: &u16| number.to_le_bytes());
    let record = |value| match (range[0] <= value && value <= range[1], listed(value)) {
        (false, _) => [5, value, 0],
        (true, true) => [0, value, 0],
        (true, false) => [6, value, 0],
    };
    let listing = [[4, 256, 0]].into_iter().chain((0..256).map(record)).collect();
    Case { name, book, message: header.chain(0..=255).collect(), expected: Expected::Listing(Ok(listing)) }
}

fn every_octet_cases() -> Vec<Case> {
    let thirds = || enumeration(4, &(0..64).map(|number| 3 * number).collect::<Vec<_>>());
    let (chars, octets) = ([32, 126], [0, 254]);
    vec![
        every_octet("every char beside 64 numbers", thirds(), CHAR, chars, |x| x % 3 == 0),
        every_octet("every uint8 beside 64 numbers", thirds(), OCTET, octets, |x| x % 3 == 0 && x < 192),
        every_octet("every uint8 beside one number", enumeration(4, &[77]), OCTET, octets, |x| x == 77),
        every_octet("every uint8 beside two numbers", enumeration(4, &[0, 254]), OCTET, octets, |x| x % 254 == 0),
        every_octet("every uint8 beside three bits", set(4, &[1, 4, 7]), OCTET, octets, |x| x & 0x6d == 0),
        every_octet("every uint8 beside all bits", set(4, &[0, 1, 2, 3, 4, 5, 6, 7]), OCTET, octets, |_| true),
    ]
}

/// A at this version with two lists, a set over its uint32 and an enumeration over its entries' uint8.
fn a_with(version: u16, bits: &[u16], values: &[u16]) -> Vec<u8> {
    let mut book = Book::read(&a()).expect("book A");
    book.version = version;
    book.lists = vec![set(2, bits), enumeration(9, values)];
    let block = &mut book.templates[0].block;
    block.fields[0].list = 3;
    block.groups[0].block.fields[0].list = 10;
    book.octets()
}

/// M's 1000 sets bits 3 and 5 to 9, its entries have 1 and 3. These lists lack bit 9, and 3.
pub fn few() -> Vec<u8> {
    a_with(0, &[3, 5, 6, 7, 8], &[1])
}

/// These lack nothing.
pub fn many() -> Vec<u8> {
    a_with(1, &[3, 4, 5, 6, 7, 8, 9], &[1, 2, 3])
}

pub fn m_by_few() -> Vec<Record> {
    let mut listing = m_under_a();
    (listing[0], listing[4]) = ([6, 1000, 0], [6, 3, 0]);
    listing
}

fn listed(name: &'static str, book: Vec<u8>, message: Vec<u8>, listing: Vec<Record>) -> Case {
    Case { name, book, message, expected: Expected::Listing(Ok(listing)) }
}

fn m_cases() -> Vec<Case> {
    let place = |name, book, steps: &[(u64, u64)], record: Result<Record, Refusal>| Case {
        name,
        book,
        message: m(),
        expected: Expected::Place(Place { steps: steps.to_vec(), kind: 0, element: 0 }, record),
    };
    vec![
        listed("M by lists that lack two of its numbers", few(), m(), m_by_few()),
        listed("M by lists that have all of its numbers", many(), m(), m_under_a()),
        place("place: an unlisted bit in the root", few(), &[], Ok([6, 1000, 0])),
        place("place: a listed value in an entry", few(), &[(0, 0)], Ok([0, 1, 0])),
        place("place: an unlisted value in an entry", few(), &[(0, 1)], Ok([6, 3, 0])),
        place("place: the same value, by a list that has it", many(), &[(0, 1)], Ok([0, 3, 0])),
        place("place: entry 2 of 2, of a field with a list: 31", few(), &[(0, 2)], Err(refusal(31, 0))),
    ]
}

fn field_cases() -> Vec<Case> {
    let octet = |offset, list| Field { list, ..field(OCTET, offset, 0) };
    let shared = with_lists(&[enumeration(4, &[1])], fields(3, vec![octet(0, 5), octet(1, 5), octet(2, 0)]));
    let second = with_lists(&[enumeration(0, &[1]), enumeration(1, &[2])], fields(2, vec![octet(0, 2), octet(1, 2)]));
    let young = Template { id: 1, block: fields(1, vec![Field { since: 1, ..octet(0, 5) }]) };
    let younger = Book { lists: vec![enumeration(4, &[1])], ..books::book(1, vec![young]) }.octets();
    let of_shared = vec![[0, 1, 0], [6, 2, 0], [0, 2, 0]];
    vec![
        listed("two fields share a list, a third has none", shared, rooted("01 02 02", 0, ""), of_shared),
        listed("the second of two lists, by its id", second, rooted("01 02", 0, ""), vec![[6, 1, 0], [0, 2, 0]]),
        listed("an absent field with a list: absent", younger, rooted("02", 0, ""), vec![[3, 0, 0]]),
    ]
}
