//! The books of the workloads.

use plain::byte_order::{BIG, LITTLE};
use plain::dimension::{FOUR, TWO};
use plain::lists::{ENUMERATION, SET};
use plain::{Block, Book, Data, Field, Group, NameList, Template};

const CHAR: u16 = 0;
const UINT8: u16 = 2;
const INT16: u16 = 3;
const UINT16: u16 = 4;
const INT32: u16 = 5;
const UINT32: u16 = 6;
const INT64: u16 = 7;
const UINT64: u16 = 8;

/// At its version the book has everything; at the one before, not what is since it.
pub const VERSION: u16 = 1;

const SCHEMA: u16 = 7;

/// A required field.
const fn one(kind: u16) -> Field {
    Field { id: 1, kind, length: 1, offset: 0, presence: 0, since: 0, list: 0 }
}

const fn optional(kind: u16) -> Field {
    Field { presence: 1, ..one(kind) }
}

/// A required text.
const fn text(length: u16) -> Field {
    Field { length, ..one(CHAR) }
}

const fn optional_text(length: u16) -> Field {
    Field { presence: 1, ..text(length) }
}

/// A required field with the list of this id.
const fn named(kind: u16, list: u16) -> Field {
    Field { list: list + 1, ..one(kind) }
}

const fn newer(field: Field) -> Field {
    Field { since: VERSION, ..field }
}

/// The fields side by side, and padding after them.
fn block(fields: &[Field], padding: u16) -> Block {
    let mut end = 0;
    let placed = fields.iter().map(|&field| {
        let field = Field { offset: end, ..field };
        end = field.end() as u16;
        field
    });
    let fields = placed.collect();
    Block { length: end + padding, fields, ..Block::default() }
}

fn group(block: Block) -> Group {
    Group { id: 2, since: 0, block }
}

const DATA: Data = Data { id: 3, since: 0 };

fn book(blocks: Vec<Block>) -> Book {
    let template = |(number, block)| Template { id: number as u16 + 1, block };
    let templates = blocks.into_iter().enumerate().map(template).collect();
    Book { schema: SCHEMA, version: VERSION, byte_order: LITTLE, dimension: TWO, templates, lists: Vec::new() }
}

/// Book A of the rules: a uint32, an optional int16, a group with a uint8, and a data.
pub fn a() -> Book {
    let entry = block(&[one(UINT8)], 1);
    let root = block(&[one(UINT32), optional(INT16)], 2);
    let block = Block { groups: vec![group(entry)], data: vec![DATA], ..root };
    Book { version: 0, ..book(vec![block]) }
}

/// An order of ten fields.
pub fn flat() -> Book {
    book(vec![order()])
}

/// Groups in groups, to depth four; the entries at depth two have a data.
pub fn deep() -> Book {
    let fourth = block(&[one(UINT32), optional(INT64)], 0);
    let third = Block { groups: vec![group(fourth)], ..block(&[one(UINT16), text(6)], 0) };
    let second = Block { groups: vec![group(third)], data: vec![DATA], ..block(&[one(UINT64), one(UINT8)], 3) };
    let first = Block { groups: vec![group(second)], ..block(&[one(UINT32), one(CHAR)], 3) };
    book(vec![Block { groups: vec![group(first)], data: vec![DATA], ..block(&[one(UINT64), one(UINT32)], 0) }])
}

/// Price levels of eight fields each.
pub fn market() -> Book {
    let price =
        [one(INT64), one(UINT64), one(UINT32), one(UINT32), one(UINT16), optional(UINT8), one(UINT8), one(CHAR)];
    let root = block(&[one(UINT64), one(UINT32), one(UINT8)], 3);
    book(vec![Block { groups: vec![group(block(&price, 3))], ..root }])
}

/// An order with its fills. Of a fill side, capacity and liquidity are codes; its conditions and what it is part of are
/// flags.
pub fn listed() -> Book {
    const SIDES: u16 = 54;
    const CAPACITIES: u16 = 528;
    const LIQUIDITIES: u16 = 851;
    const CONDITIONS: u16 = 277;
    const PARTS: u16 = 442;
    let list = |id, kind, numbers: &[u16]| NameList { id, kind, numbers: numbers.to_vec() };
    let codes = |id, codes: &[u8]| list(id, ENUMERATION, &codes.iter().map(|&code| code.into()).collect::<Vec<_>>());
    let fill = [
        one(INT64),
        one(UINT32),
        named(CHAR, SIDES),
        named(CHAR, CAPACITIES),
        named(UINT8, LIQUIDITIES),
        optional(UINT8),
        named(UINT16, CONDITIONS),
        named(UINT64, PARTS),
    ];
    let root = block(&[one(UINT64), text(12), named(CHAR, SIDES), one(UINT32)], 3);
    Book {
        lists: vec![
            codes(SIDES, b"1256"),
            list(CONDITIONS, SET, &[0, 1, 2, 3, 4, 8, 9, 12]),
            list(PARTS, SET, &[0, 1, 2, 3, 16, 17, 18, 32, 33, 48, 60, 63]),
            codes(CAPACITIES, b"AGIPRW"),
            list(LIQUIDITIES, ENUMERATION, &[0, 1, 2, 3, 4, 5, 10, 20, 40, 41]),
        ],
        ..book(vec![Block { groups: vec![group(block(&fill, 2))], ..root }])
    }
}

/// An order with three symbols: of what is bought or sold, of what that stands for, if anything, and of the market.
pub fn symbols() -> Book {
    const SYMBOL: u16 = 8;
    let order = [one(UINT64), text(SYMBOL), optional_text(SYMBOL), text(SYMBOL), one(INT64), one(UINT32), one(CHAR)];
    book(vec![block(&order, 3)])
}

/// Four texts, each as long as a text may be.
pub fn texts() -> Book {
    const LONGEST: u16 = 1024;
    let notes = [one(UINT64), text(LONGEST), text(LONGEST), optional_text(LONGEST), text(LONGEST), one(UINT32)];
    book(vec![block(&notes, 0)])
}

/// Of one uint8.
fn octet() -> Block {
    block(&[one(UINT8)], 0)
}

/// A group of a uint8, and in it one of this block.
fn two_deep(version: u16, inner: Block) -> Book {
    let outer = Block { groups: vec![group(inner)], ..octet() };
    Book { version, ..book(vec![Block { groups: vec![group(outer)], ..Block::default() }]) }
}

/// Two groups, one in the other.
pub fn narrow() -> Book {
    two_deep(0, octet())
}

/// The inner one has 16 groups, and each of these 16.
pub fn wide() -> Book {
    let with_groups = |block| Block { groups: vec![group(block); 16], ..octet() };
    two_deep(0, with_groups(with_groups(octet())))
}

/// The inner one has got a field at each of so many versions.
pub fn younger(versions: u16) -> Book {
    let fields: Vec<Field> = (0..=versions).map(|since| Field { since, ..one(UINT8) }).collect();
    two_deep(versions, block(&fields, 0))
}

/// The book with dimensions of four numbers, as those have that follow.
pub fn counted(book: Book) -> Book {
    Book { dimension: FOUR, ..book }
}

/// Two groups, one in the other, which has got a group and a data at each of 16 versions.
pub fn aged() -> Book {
    counted(two_deep(AGES, aged_octet()))
}

/// A uint8, and a group whose entries have got a group and a data at each of 16 versions.
pub fn absent() -> Book {
    let root = Block { groups: vec![group(aged_octet())], ..octet() };
    counted(Book { version: AGES, ..book(vec![root]) })
}

const AGES: u16 = 16;

/// Of one uint8, and of a group and a data since each of the versions after the first.
fn aged_octet() -> Block {
    let aged = |since| Group { id: 2, since, block: block(&[Field { since, ..one(UINT8) }], 0) };
    let data = (1..=AGES).map(|since| Data { since, ..DATA }).collect();
    Block { groups: (1..=AGES).map(aged).collect(), data, ..octet() }
}

/// A uint8 alone.
pub fn groupless() -> Book {
    counted(Book { version: 0, ..book(vec![octet()]) })
}

/// Eight templates, as a session of trading has them.
pub fn session() -> Book {
    book(vec![
        newer_order(),
        block(&[one(UINT64), one(UINT64), one(UINT32), one(CHAR), one(UINT64)], 3),
        execution(),
        prices(),
        snapshot(),
        Block { data: vec![DATA; 2], ..block(&[one(UINT64), one(UINT8)], 0) },
        allocation(),
        block(&[one(UINT64), one(UINT32)], 0),
    ])
}

/// The same for big-endian messages.
pub fn big_session() -> Book {
    Book { byte_order: BIG, ..session() }
}

const ORDER: [Field; 10] = [
    one(UINT64),
    text(16),
    one(UINT32),
    one(CHAR),
    one(INT64),
    one(UINT32),
    optional(INT32),
    one(UINT8),
    one(UINT16),
    one(UINT64),
];

fn order() -> Block {
    block(&ORDER, 0)
}

fn newer_order() -> Block {
    block(&[&ORDER[..], &[newer(one(UINT8))]].concat(), 7)
}

fn execution() -> Block {
    let of_fill = [one(INT64), one(UINT32), one(UINT32), optional(INT64), one(CHAR), newer(optional(UINT32))];
    Block { data: vec![DATA], ..block(&[&ORDER[..], &of_fill].concat(), 0) }
}

fn prices() -> Block {
    let price = [one(INT64), one(UINT32), one(UINT32), one(UINT16), optional(UINT8), one(UINT8), one(CHAR)];
    Block { groups: vec![group(block(&price, 0))], ..block(&[one(UINT64), one(UINT32)], 0) }
}

fn snapshot() -> Block {
    let level = block(&[one(INT64), one(UINT32), one(UINT16)], 2);
    Block { groups: vec![group(level); 2], ..block(&[one(UINT64), one(UINT32), one(UINT32)], 0) }
}

fn allocation() -> Block {
    let part = block(&[one(UINT32), one(INT64), one(UINT8)], 0);
    let account = Block { groups: vec![group(part)], data: vec![DATA], ..block(&[one(UINT32), one(UINT64)], 0) };
    let root = block(&[one(UINT64), one(UINT32), text(12)], 0);
    Block { groups: vec![group(account)], data: vec![DATA], ..root }
}
