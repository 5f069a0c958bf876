//! Listings with a name, and the message that each is written to.

use super::books::{a, b, field, fields, nested, of, DATA, OCTET};
use super::messages::{m, m_under_a, of_b, rooted, MINUS_5};
use super::{octets, Case, Expected};
use plain::{Block, Draft, Field, Record};

/// For template 1.
pub fn draft(records: &[Record], pool: &[u8]) -> Draft {
    Draft { template: 1, listing: records.concat(), pool: pool.to_vec() }
}

/// M's listing under A, with M as the pool.
pub fn draft_of_m() -> Draft {
    draft(&m_under_a(), &m())
}

fn written(name: &'static str, book: Vec<u8>, draft: Draft, room: usize, message: Vec<u8>) -> Case {
    Case { name, book, message: Vec::new(), expected: Expected::Written(draft, room, Ok(message)) }
}

/// A case with room for exactly its message.
fn exact(name: &'static str, book: Vec<u8>, draft: Draft, message: Vec<u8>) -> Case {
    written(name, book, draft, message.len(), message)
}

pub fn cases() -> Vec<Case> {
    let no_entries = [[0, 1000, 0], [0, MINUS_5, 0], [4, 0, 0], [2, 30, 2]];
    let without = [&m()[..20], &octets("02 00 00 00 | 02 00 61 62")].concat();
    let mut cases = vec![
        exact("writing M under A: M", a(), draft_of_m(), m()),
        written("writing M under A, in more room", a(), draft_of_m(), 50, m()),
        exact("writing B's message under B", b(), draft(&of_b_listing(), &of_b()), of_b()),
        exact("writing a group without entries: its dimension", a(), draft(&no_entries, &m()), without),
        exact("writing a root without elements: the header", of(Block::default()), draft(&[], &[]), rooted("", 0, "")),
        written("writing zero padding", of(padded()), draft(&[[0, 7, 0], [1, 0, 0]], &[]), 30, padding()),
        exact("writing groups to depth four", of(nested(4)), draft(&to_depth_four(), &[]), depth_four()),
    ];
    cases.extend(data_cases());
    cases.extend(type_cases());
    cases
}

/// The listing of B's message under B.
pub fn of_b_listing() -> Vec<Record> {
    [&m_under_a()[..2], &[[0, 9, 0]], &m_under_a()[2..5], &[[4, 1, 0], [0, 42, 0], [2, 38, 2]]].concat()
}

/// Octets before, between and after the fields.
pub fn padded() -> Block {
    fields(10, vec![field(OCTET, 1, 0), field(3, 5, 1)])
}

fn padding() -> Vec<u8> {
    rooted("00 07 00 00 00 00 80 00 00 00", 0, "")
}

pub fn to_depth_four() -> Vec<Record> {
    vec![
        [0, 1, 0],
        [4, 1, 0],
        [0, 2, 0],
        [4, 2, 0],
        [0, 3, 0],
        [4, 0, 0],
        [0, 4, 0],
        [4, 1, 0],
        [0, 5, 0],
        [4, 1, 0],
        [0, 6, 0],
    ]
}

pub fn depth_four() -> Vec<u8> {
    let root = "01 00 01 00 07 00 00 00 01 00 00 00 | 01";
    octets(
        &[root, "01 00 01 00 | 02", "01 00 02 00 | 03", "01 00 00 00 | 04", "01 00 01 00 | 05", "01 00 01 00 | 06"]
            .join("|"),
    )
}

fn data_cases() -> Vec<Case> {
    let data = || of(Block { data: vec![DATA, DATA], ..Block::default() });
    let array = || of(fields(4, vec![Field { length: 4, ..field(OCTET, 0, 0) }]));
    let (twice, at_end) = ([[2, 0, 4], [2, 1, 2]], [[2, 6, 0], [2, 4, 2]]);
    let pool = b"MSFT\0\xff";
    vec![
        exact(
            "writing data from one pool",
            data(),
            draft(&twice, pool),
            rooted("", 2, "04 00 4d 53 46 54 02 00 53 46"),
        ),
        exact("writing data up to the pool's end", data(), draft(&at_end, pool), rooted("", 2, "00 00 02 00 00 ff")),
        exact("writing empty data of an empty pool", data(), draft(&[[2, 0, 0]; 2], &[]), rooted("", 2, "00 00 00 00")),
        exact(
            "writing a uint8 array, which has no range",
            array(),
            draft(&[[2, 2, 4]], pool),
            rooted("46 54 00 ff", 0, ""),
        ),
    ]
}

/// A field of each type.
pub fn nine_types() -> Vec<u8> {
    let offsets = [0, 1, 2, 3, 5, 7, 11, 15, 23];
    of(fields(31, (0..9).map(|kind| field(kind, offsets[usize::from(kind)], 1)).collect()))
}

fn type_cases() -> Vec<Case> {
    let numbers = |values: [i128; 9]| draft(&values.map(|value| [0, value as u64, 0]), &[]);
    let least = numbers([32, -127, 0, -32767, 0, 1 - (1 << 31), 0, 1 - (1 << 63), 0]);
    let greatest = numbers([126, 127, 254, 32767, 65534, (1 << 31) - 1, (1 << 32) - 2, (1 << 63) - 1, (1 << 64) - 2]);
    let of_nulls = "00 80 ff 00 80 ff ff 00 00 00 80 ff ff ff ff 00 00 00 00 00 00 00 80 ff ff ff ff ff ff ff ff";
    let of_least = "20 81 00 01 80 00 00 01 00 00 80 00 00 00 00 01 00 00 00 00 00 00 80 00 00 00 00 00 00 00 00";
    let of_greatest = "7e 7f fe ff 7f fe ff ff ff ff 7f fe ff ff ff ff ff ff ff ff ff ff 7f fe ff ff ff ff ff ff ff";
    vec![
        exact("writing null of each type", nine_types(), draft(&[[1, 0, 0]; 9], &[]), rooted(of_nulls, 0, "")),
        exact("writing the least of each type", nine_types(), least, rooted(of_least, 0, "")),
        exact("writing the greatest of each type", nine_types(), greatest, rooted(of_greatest, 0, "")),
    ]
}
