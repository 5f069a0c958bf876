//! Templates whose shortest message is as long as one may be, and an octet longer, so that the book is refused: with
//! groups and data in the root or neither, by either byte order, and with dimensions of two numbers and of four.

use super::cases::{Asked, Case};
use plain::byte_order::{BIG, LITTLE};
use plain::dimension::{FOUR, TWO};
use plain::{Block, Book, Data, Draft, Field, Group, Place, Record, Template, LONGEST};

pub fn cases() -> Vec<Case> {
    let formats = [(LITTLE, TWO), (LITTLE, FOUR), (BIG, TWO), (BIG, FOUR)];
    formats.iter().flat_map(|&format| [0, 1, 16].map(|count| of_format(format, count))).flatten().collect()
}

/// So many groups and data. The longest message is written, and read; so is one that has an octet of data or an entry
/// more; and by the book that is refused the same is asked.
fn of_format((byte_order, dimension): (u16, u16), count: usize) -> Vec<Case> {
    let book = |length| {
        let block = Block { length, fields: Vec::new(), groups: vec![group(); count], data: vec![DATA; count] };
        let templates = vec![Template { id: 1, block }];
        Book { schema: 7, version: 0, byte_order, dimension, templates, lists: Vec::new() }
    };
    let bare = book(0);
    let length = (LONGEST - bare.shortest(&bare.templates[0].block)) as u16;
    let (longest, too_long) = (book(length), book(length + 1));
    let records = [vec![[4, 0, 0]; count], vec![[2, 0, 0]; count]].concat();
    let message = plain::writer::message(&longest, &draft(&records)).expect("a listing that holds");
    let mut asked = vec![
        Asked::Read(message.clone(), PLACES.map(place).to_vec()),
        Asked::Read([&message[..], &[0]].concat(), Vec::new()),
        Asked::Write(draft(&records), LONGEST + 5),
    ];
    if count > 0 {
        let with_entry = [&[[4, 1, 0], [0, 7, 0]], &records[1..]].concat();
        let with_octet = [&records[..records.len() - 1], &[[2, 0, 1]]].concat();
        asked.extend([with_entry, with_octet].map(|records| Asked::Write(draft(&records), LONGEST + 5)));
    }
    let by = |asked: &Asked| [&longest, &too_long].map(|book| Case { book: book.octets(), asked: asked.clone() });
    asked.iter().flat_map(by).collect()
}

const DATA: Data = Data { id: 3, since: 0 };

/// Of a group and of a data, by their kinds.
const PLACES: [u64; 2] = [1, 2];

fn place(kind: u64) -> Place {
    Place { steps: Vec::new(), kind, element: 0 }
}

fn group() -> Group {
    let octet = Field { id: 1, kind: 2, length: 1, offset: 0, presence: 0, since: 0, list: 0 };
    Group { id: 2, since: 0, block: Block { length: 1, fields: vec![octet], ..Block::default() } }
}

fn draft(records: &[Record]) -> Draft {
    Draft { template: 1, listing: records.concat(), pool: vec![7] }
}
