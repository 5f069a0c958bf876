//! Texts that end where the message or the pool does, and start where the pool does: without NUL, and with NUL at any
//! of their octets.

use super::cases::{Asked, Case};
use plain::{byte_order::LITTLE, dimension::TWO, Block, Book, Draft, Field, Group, Place, Record, Template};

const LENGTHS: [usize; 12] = [2, 3, 4, 5, 7, 8, 9, 15, 16, 17, 33, 1024];
/// Of the longest text NUL is tried at so many of its first octets, and at so many of its last.
const ENDS: usize = 9;

pub fn cases() -> Vec<Case> {
    let fields = LENGTHS.iter().flat_map(|&length| [text(length, 0), text(length, 1)]);
    fields.flat_map(|field| [in_root(field), in_entry(field), written(field), shorter(field)]).flatten().collect()
}

fn text(length: usize, presence: u16) -> Field {
    Field { id: 1, kind: 0, length: length as u16, offset: 0, presence, since: 0, list: 0 }
}

fn of_field(field: Field) -> Block {
    Block { length: field.length, fields: vec![field], ..Block::default() }
}

/// A book of schema 7 at version 0 with one template, 1.
fn book(block: Block) -> Vec<u8> {
    let templates = vec![Template { id: 1, block }];
    Book { schema: 7, version: 0, byte_order: LITTLE, dimension: TWO, templates, lists: Vec::new() }.octets()
}

/// The octets of a text without NUL, and with one at each position.
fn octets(field: Field) -> impl Iterator<Item = Vec<u8>> {
    let length = field.octets();
    let nuls = (0..length).filter(move |nul| nul.min(&(length - 1 - nul)) < &ENDS).map(Some);
    nuls.chain([None]).map(move |nul| {
        let mut octets = vec![b'A'; length];
        nul.into_iter().for_each(|nul| octets[nul] = 0);
        octets
    })
}

fn read(book: Vec<u8>, words: &[u16], octets: &[u8], steps: Vec<(u64, u64)>) -> Case {
    let message = words.iter().flat_map(|word| word.to_le_bytes()).chain(octets.iter().copied()).collect();
    Case { book, asked: Asked::Read(message, vec![Place { steps, kind: 0, element: 0 }]) }
}

/// The root block is the text, and the message's last.
fn in_root(field: Field) -> Vec<Case> {
    let case = |octets: Vec<u8>| read(book(of_field(field)), &[field.length, 1, 7, 0, 0, 0], &octets, Vec::new());
    octets(field).map(case).collect()
}

/// So is the last of two entries.
fn in_entry(field: Field) -> Vec<Case> {
    let block = Block { groups: vec![Group { id: 2, since: 0, block: of_field(field) }], ..Block::default() };
    let words = [0, 1, 7, 0, 1, 0, field.length, 2];
    octets(field).map(|octets| read(book(block.clone()), &words, &octets.repeat(2), vec![(0, 1)])).collect()
}

fn write(field: Field, record: Record, pool: Vec<u8>) -> Case {
    let draft = Draft { template: 1, listing: record.to_vec(), pool };
    Case { book: book(of_field(field)), asked: Asked::Write(draft, 12 + field.octets() + 5) }
}

/// All of the pool is the text, which is good or has a NUL.
fn written(field: Field) -> Vec<Case> {
    octets(field).map(|octets| write(field, [2, 0, field.length.into()], octets)).collect()
}

/// So is a shorter one, an empty one, and one that is longer than its field; and null by an empty pool.
fn shorter(field: Field) -> Vec<Case> {
    let lengths = (0..=field.octets() + 1).filter(|&length| length < ENDS || length + ENDS > field.octets());
    let texts = lengths.map(|length| write(field, [2, 0, length as u64], vec![b'A'; length]));
    texts.chain([write(field, [1, 0, 0], Vec::new())]).collect()
}
