//! Books with a name, and the verdict on each.

use super::{Case, Expected};
use plain::{byte_order::LITTLE, dimension::TWO};
use plain::{lists, refusal, Block, Book, Data, Field, Group, NameList, Refusal, Template};

/// Book A of the rules, word by word.
pub fn a() -> Vec<u8> {
    let head = [7, 0, 1, 43, 0, 0, 2, 1, 10, 33, 8, 2, 1, 1];
    let root = [38, 6, 1, 0, 0, 0, 0, 44, 3, 1, 4, 1, 0, 0, 58, 0];
    let group = [453, 0, 2, 1, 0, 0, 452, 2, 1, 0, 0, 0, 0];
    words(&[&head[..], &root, &group].concat())
}

/// Book B of the rules: A at version 1, with a root field uint8 at offset 6 and a second root group, both since 1.
pub fn b() -> Vec<u8> {
    let head = [7, 1, 1, 63, 0, 0, 2, 1, 10, 53, 8, 3, 2, 1];
    let root = [38, 6, 1, 0, 0, 0, 0, 44, 3, 1, 4, 1, 0, 0, 32, 2, 1, 6, 0, 1, 0, 58, 0];
    let groups = [453, 0, 2, 1, 0, 0, 452, 2, 1, 0, 0, 0, 0, 454, 1, 4, 1, 0, 0, 455, 6, 1, 0, 0, 1, 0];
    words(&[&head[..], &root, &groups].concat())
}

pub fn words(words: &[u16]) -> Vec<u8> {
    words.iter().flat_map(|word| word.to_le_bytes()).collect()
}

/// A book of schema 7 for little-endian messages with dimensions of two numbers, without lists.
pub fn book(version: u16, templates: Vec<Template>) -> Book {
    Book { schema: 7, version, byte_order: LITTLE, dimension: TWO, templates, lists: Vec::new() }
}

/// A book of schema 7 at version 0 with one template, 1.
pub fn of(block: Block) -> Vec<u8> {
    book(0, vec![Template { id: 1, block }]).octets()
}

/// The same with these lists.
pub fn with_lists(lists: &[NameList], block: Block) -> Vec<u8> {
    Book { lists: lists.to_vec(), ..book(0, vec![Template { id: 1, block }]) }.octets()
}

/// A field of one value, since 0 and without list.
pub fn field(kind: u16, offset: u16, presence: u16) -> Field {
    Field { id: 1, kind, length: 1, offset, presence, since: 0, list: 0 }
}

pub fn enumeration(id: u16, values: &[u16]) -> NameList {
    NameList { id, kind: lists::ENUMERATION, numbers: values.to_vec() }
}

pub fn set(id: u16, bits: &[u16]) -> NameList {
    NameList { id, kind: lists::SET, numbers: bits.to_vec() }
}

pub fn fields(length: u16, fields: Vec<Field>) -> Block {
    Block { length, fields, ..Block::default() }
}

pub const OCTET: u16 = 2;
pub const DATA: Data = Data { id: 58, since: 0 };

/// A block with a group in a group, so deep.
pub fn nested(depth: usize) -> Block {
    let mut block = fields(1, vec![field(OCTET, 0, 0)]);
    if depth > 0 {
        block.groups = vec![Group { id: 453, since: 0, block: nested(depth - 1) }];
    }
    block
}

/// An int64 at offset 25 and a uint8 at `next`.
fn after_int64(next: u16) -> Vec<u8> {
    of(fields(40, vec![field(7, 25, 0), field(OCTET, next, 0)]))
}

/// 8,192 octets: eight templates of 64 fields, one of 61 and one of none, and a list of four numbers.
fn largest() -> Book {
    let counts = [64, 64, 64, 64, 64, 64, 64, 64, 61, 0];
    let template = |(id, &count): (usize, &u16)| {
        let octet_fields = (0..count).map(|offset| field(OCTET, offset, 0)).collect();
        Template { id: id as u16, block: fields(count, octet_fields) }
    };
    let templates = counts.iter().enumerate().map(template).collect();
    Book { lists: vec![enumeration(9, &[1, 2, 3, 4])], ..book(0, templates) }
}

/// The largest book and one word more: a book that breaks this rule alone has no place for a single word, so it is
/// left over.
fn too_large() -> Vec<u8> {
    let mut octets = super::with_word(&largest().octets(), 6, 4097);
    octets.extend([0, 0]);
    octets
}

pub fn cases() -> Vec<Case> {
    let case = |name, book, verdict: Result<(), Refusal>| Case {
        name,
        book,
        message: Vec::new(),
        expected: Expected::Book(verdict),
    };
    let largest = largest().octets();
    assert_eq!(largest.len(), 8192);
    vec![
        case("book A", a(), Ok(())),
        case("book B", b(), Ok(())),
        case("int64 at offset 25, next field at 32: 5", after_int64(32), Err(refusal(5, 0))),
        case("int64 at offset 25, next field at 33: accepted", after_int64(33), Ok(())),
        case("depth 4: accepted", of(nested(4)), Ok(())),
        case("depth 5: 4", of(nested(5)), Err(refusal(4, 0))),
        case("a book of 8,192 octets: accepted", largest, Ok(())),
        case("a book of 8,194 octets: 1", too_large(), Err(refusal(1, 0))),
        case("a book of 7 octets: 1", a()[..7].to_vec(), Err(refusal(1, 0))),
        case("an empty book: 1", Vec::new(), Err(refusal(1, 0))),
    ]
}
