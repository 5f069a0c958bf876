//! Numbers that end where the message does, or the room: of each type, by either byte order, and with dimensions of two
//! numbers and of four.

use super::cases::{Asked, Case};
use plain::byte_order::{BIG, LITTLE};
use plain::dimension::{FOUR, TWO};
use plain::{types::TYPES, Block, Book, Data, Draft, Field, Group, Place, Record, Template};

pub fn cases() -> Vec<Case> {
    [(LITTLE, TWO), (LITTLE, FOUR), (BIG, TWO), (BIG, FOUR)].iter().flat_map(|&format| of_format(format)).collect()
}

/// Byte order, and numbers of a dimension.
type Format = (u16, u16);

fn of_format(format: Format) -> Vec<Case> {
    let types = || (0..TYPES.len() as u16).map(number);
    let group = |field| Block { groups: vec![Group { id: 2, since: 0, block: of_field(field) }], ..Block::default() };
    let data = Block { data: vec![Data { id: 3, since: 0 }], ..Block::default() };
    let root = types().flat_map(|field| both(format, of_field(field), &VALUES.map(|value| vec![value]), &[]));
    let entries = types().flat_map(|field| {
        let listings = VALUES.map(|value| vec![[4, 2, 0], [0, 100, 0], value]);
        both(format, group(field), &listings, &[(0, 1)])
    });
    let lengths = both(format, data, &[vec![[2, 0, 0]], vec![[2, 0, 1]]], &[]);
    let dimension = both(format, group(number(0)), &[vec![[4, 0, 0]]], &[]);
    root.chain(entries).chain(lengths).chain(dimension).collect()
}

/// A number that every type has, and null.
const VALUES: [Record; 2] = [[0, 65, 0], [1, 0, 0]];

fn number(kind: u16) -> Field {
    Field { id: 1, kind, length: 1, offset: 0, presence: 1, since: 0, list: 0 }
}

fn of_field(field: Field) -> Block {
    Block { length: field.octets() as u16, fields: vec![field], ..Block::default() }
}

/// Each listing is written, and what comes of it is read, whole and without its last octet, and asked for a field.
fn both((byte_order, dimension): Format, block: Block, listings: &[Vec<Record>], steps: &[(u64, u64)]) -> Vec<Case> {
    let templates = vec![Template { id: 1, block }];
    let tree = Book { schema: 7, version: 0, byte_order, dimension, templates, lists: Vec::new() };
    let case = |asked| Case { book: tree.octets(), asked };
    let cases = listings.iter().flat_map(|records| {
        let draft = Draft { template: 1, listing: records.concat(), pool: vec![7] };
        let message = plain::writer::message(&tree, &draft).expect("a listing that holds");
        let place = || vec![Place { steps: steps.to_vec(), kind: 0, element: 0 }];
        let cut = message[..message.len() - 1].to_vec();
        let room = message.len() + 5;
        [Asked::Read(message, place()), Asked::Read(cut, place()), Asked::Write(draft, room)].map(case)
    });
    cases.collect()
}
