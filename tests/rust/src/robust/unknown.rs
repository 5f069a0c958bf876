//! A message of a newer book with groups and data that the older one does not know, in the root and inside a group, cut
//! at every octet and read by either.

use super::cases::{Asked, Case};
use plain::byte_order::{BIG, LITTLE};
use plain::{dimension::FOUR, Block, Book, Data, Draft, Field, Group, Place, Record, Template};

pub fn cases() -> Vec<Case> {
    [LITTLE, BIG].iter().flat_map(|&byte_order| of_order(byte_order)).collect()
}

fn of_order(byte_order: u16) -> Vec<Case> {
    let book = |version, block| {
        let templates = vec![Template { id: 1, block }];
        Book { schema: 7, version, byte_order, dimension: FOUR, templates, lists: Vec::new() }
    };
    let (older, newer) = (book(0, older()), book(1, newer()));
    let draft = Draft { template: 1, listing: LISTING.concat(), pool: b"abc".to_vec() };
    let message = plain::writer::message(&newer, &draft).expect("a listing that holds");
    let places = || vec![Place { steps: vec![(0, 1)], kind: 0, element: 0 }];
    let cut =
        |book: &Book, end: usize| Case { book: book.octets(), asked: Asked::Read(message[..end].to_vec(), places()) };
    (0..=message.len()).flat_map(|end| [cut(&older, end), cut(&newer, end)]).collect()
}

/// A group of two entries. In each are a group of an entry, which has a group of an entry and a data, and a data; then
/// there are in the root a group of two entries and a data.
const LISTING: [Record; 17] = [
    [4, 2, 0],
    [0, 1, 0],
    [4, 1, 0],
    [0, 2, 0],
    [4, 1, 0],
    [0, 3, 0],
    [2, 0, 3],
    [2, 1, 2],
    [0, 4, 0],
    [4, 0, 0],
    [2, 0, 0],
    [4, 2, 0],
    [0, 5, 0],
    [2, 0, 1],
    [0, 6, 0],
    [2, 0, 0],
    [2, 2, 1],
];

fn older() -> Block {
    Block { groups: vec![group(0, Vec::new(), 0)], ..Block::default() }
}

fn newer() -> Block {
    let inner = group(1, vec![group(1, Vec::new(), 0)], 1);
    let groups = vec![group(0, vec![inner], 1), group(1, Vec::new(), 1)];
    Block { groups, data: vec![YOUNG], ..Block::default() }
}

const YOUNG: Data = Data { id: 3, since: 1 };

/// A group of one octet, with these groups and so many data.
fn group(since: u16, groups: Vec<Group>, data: usize) -> Group {
    let octet = Field { id: 1, kind: 2, length: 1, offset: 0, presence: 0, since, list: 0 };
    Group { id: 2, since, block: Block { length: 1, fields: vec![octet], groups, data: vec![YOUNG; data] } }
}
