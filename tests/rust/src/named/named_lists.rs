//! Fields that name a list, and the verdict on each: refusal 5 for a list that is missing or cannot stand there.

use super::books::{self, enumeration, field, fields, nested, of, set, with_lists, OCTET};
use super::lists::{book, no};
use super::Case;
use plain::{Block, Book, Field, Group, Template};

pub fn cases() -> Vec<Case> {
    [number_cases(), type_cases(), array_cases(), bit_cases(), value_cases(), where_cases()]
        .into_iter()
        .flatten()
        .collect()
}

/// A block of one field, of this type and length, that names a list by this word.
fn one(kind: u16, length: u16, list: u16) -> Block {
    fields(8, vec![Field { length, list, ..field(kind, 0, 0) }])
}

/// By its id plus one, and neither by its id nor by its position.
fn number_cases() -> Vec<Case> {
    let two = [enumeration(4, &[1]), set(9, &[1])];
    let of_two = |word| with_lists(&two, one(OCTET, 1, word));
    let of_last = |word| with_lists(&[set(65534, &[1])], one(OCTET, 1, word));
    vec![
        book("a field without list, of 4 and 9: accepted", of_two(0), Ok(())),
        book("a field that names list 4 of 4 and 9: accepted", of_two(5), Ok(())),
        book("a field that names list 9 of 4 and 9: accepted", of_two(10), Ok(())),
        book("a field that names list 0, of 4 and 9: 5", of_two(1), no(5, 0)),
        book("a field that names list 1, of 4 and 9: 5", of_two(2), no(5, 0)),
        book("a field that names list 3, of 4 and 9: 5", of_two(4), no(5, 0)),
        book("a field that names list 5, of 4 and 9: 5", of_two(6), no(5, 0)),
        book("a field that names list 8, of 4 and 9: 5", of_two(9), no(5, 0)),
        book("a field that names list 10, of 4 and 9: 5", of_two(11), no(5, 0)),
        book("a field that names list 65534: accepted", of_last(65535), Ok(())),
        book("a field that names list 65533, of 65534: 5", of_last(65534), no(5, 0)),
        book("a field that names a list where there is none: 5", of(one(OCTET, 1, 1)), no(5, 0)),
    ]
}

/// By types from 0 on.
fn type_cases() -> Vec<Case> {
    let enumerations = [
        ("an enumeration over char: accepted", Ok(())),
        ("an enumeration over int8: 5", no(5, 0)),
        ("an enumeration over uint8: accepted", Ok(())),
        ("an enumeration over int16: 5", no(5, 0)),
        ("an enumeration over uint16: accepted", Ok(())),
        ("an enumeration over int32: 5", no(5, 0)),
        ("an enumeration over uint32: 5", no(5, 0)),
        ("an enumeration over int64: 5", no(5, 0)),
        ("an enumeration over uint64: 5", no(5, 0)),
    ];
    let sets = [
        ("a set over char: 5", no(5, 0)),
        ("a set over int8: 5", no(5, 0)),
        ("a set over uint8: accepted", Ok(())),
        ("a set over int16: 5", no(5, 0)),
        ("a set over uint16: accepted", Ok(())),
        ("a set over int32: 5", no(5, 0)),
        ("a set over uint32: accepted", Ok(())),
        ("a set over int64: 5", no(5, 0)),
        ("a set over uint64: accepted", Ok(())),
    ];
    let (values, bits) = ([enumeration(4, &[65])], [set(4, &[0])]);
    let over = |lists, (name, verdict), kind| book(name, with_lists(lists, one(kind, 1, 5)), verdict);
    let enumerations = enumerations.into_iter().zip(0..).map(|(said, kind)| over(&values, said, kind));
    let sets = sets.into_iter().zip(0..).map(|(said, kind)| over(&bits, said, kind));
    enumerations.chain(sets).collect()
}

fn array_cases() -> Vec<Case> {
    let values = |kind, length| with_lists(&[enumeration(4, &[65])], one(kind, length, 5));
    let bits = |length, word| with_lists(&[set(4, &[0])], one(OCTET, length, word));
    vec![
        book("an enumeration over an array of two chars: 5", values(0, 2), no(5, 0)),
        book("an enumeration over an array of two uint8: 5", values(OCTET, 2), no(5, 0)),
        book("a set over an array of two uint8: 5", bits(2, 5), no(5, 0)),
        book("an array beside a list that it does not name: accepted", bits(2, 0), Ok(())),
    ]
}

fn bit_cases() -> Vec<Case> {
    let bits = |kind, bits: &[u16]| with_lists(&[set(4, bits)], one(kind, 1, 5));
    let all: Vec<u16> = (0..64).collect();
    let shared = |bit| {
        let named = |kind, offset| Field { list: 5, ..field(kind, offset, 0) };
        with_lists(&[set(4, &[0, bit])], fields(9, vec![named(8, 0), named(OCTET, 8)]))
    };
    vec![
        book("bit 7 of a uint8: accepted", bits(2, &[7]), Ok(())),
        book("bit 8 of a uint8: 5", bits(2, &[8]), no(5, 0)),
        book("bit 15 of a uint16: accepted", bits(4, &[15]), Ok(())),
        book("bit 16 of a uint16: 5", bits(4, &[16]), no(5, 0)),
        book("bit 31 of a uint32: accepted", bits(6, &[31]), Ok(())),
        book("bit 32 of a uint32: 5", bits(6, &[32]), no(5, 0)),
        book("bit 63 of a uint64: accepted", bits(8, &[63]), Ok(())),
        book("bit 64 of a uint64: 5", bits(8, &[64]), no(5, 0)),
        book("bit 65,535 of a uint64: 5", bits(8, &[65535]), no(5, 0)),
        book("bits 0 and 7 of a uint8: accepted", bits(2, &[0, 7]), Ok(())),
        book("bits 0 and 8 of a uint8: 5", bits(2, &[0, 8]), no(5, 0)),
        book("all 64 bits of a uint64: accepted", bits(8, &all), Ok(())),
        book("bit 7 for a uint64 and a uint8: accepted", shared(7), Ok(())),
        book("bit 8 for a uint64 and a uint8: 5", shared(8), no(5, 0)),
    ]
}

fn value_cases() -> Vec<Case> {
    let values = |kind, values: &[u16]| with_lists(&[enumeration(4, values)], one(kind, 1, 5));
    vec![
        book("values that a char cannot hold: accepted", values(0, &[0, 31, 127, 200, 65535]), Ok(())),
        book("values that a uint8 cannot hold: accepted", values(2, &[255, 256, 65535]), Ok(())),
    ]
}

/// Every field is looked at, wherever it stands: by the word of list 4, and by one more.
fn where_cases() -> Vec<Case> {
    let lists = [set(4, &[7])];
    let named = |offset, list| Field { list, ..field(OCTET, offset, 0) };
    let last_field = |word| {
        let octets = (0..64).map(|offset| named(offset, if offset == 63 { word } else { 0 })).collect();
        with_lists(&lists, fields(64, octets))
    };
    let around = |block| Block { groups: vec![Group { id: 453, since: 0, block }], ..nested(0) };
    let deepest = |word| with_lists(&lists, (0..4).fold(fields(1, vec![named(0, word)]), |block, _| around(block)));
    let last_template = |word| {
        let block = |id| if id == 63 { fields(1, vec![named(0, word)]) } else { Block::default() };
        let templates = (0..64).map(|id| Template { id, block: block(id) }).collect();
        Book { lists: lists.to_vec(), ..books::book(0, templates) }.octets()
    };
    vec![
        book("a list for the last of 64 fields: accepted", last_field(5), Ok(())),
        book("a missing list for the last of 64 fields: 5", last_field(6), no(5, 0)),
        book("a list at depth four: accepted", deepest(5), Ok(())),
        book("a missing list at depth four: 5", deepest(6), no(5, 0)),
        book("a list for the last of 64 templates: accepted", last_template(5), Ok(())),
        book("a missing list for the last of 64 templates: 5 at 63", last_template(6), no(5, 63)),
    ]
}
