//! Books by their byte order, the head's sixth word, and big-endian messages: M turned, and M by the book of the other
//! order.

use super::books::{self, a, b, field, fields, of, words, OCTET};
use super::lists::{book, no};
use super::messages::{b_under_a, m, m_under_a, m_under_b, MINUS_5};
use super::{octets, with_word, Case, Expected};
use plain::byte_order::{BIG, LITTLE};
use plain::{refusal, Block, Book, Field, Place, Record, Refusal, Template};

/// Where a book has its byte order.
const BYTE_ORDER: usize = 10;

pub fn cases() -> Vec<Case> {
    [head_cases(), m_cases(), other_cases(), header_cases(), version_cases(), walk_cases(), place_cases()]
        .into_iter()
        .flatten()
        .collect()
}

/// The book for big-endian messages.
pub fn big(book: Vec<u8>) -> Vec<u8> {
    with_word(&book, BYTE_ORDER, BIG)
}

/// M with every number turned.
pub fn big_m() -> Vec<u8> {
    octets("00 08 00 01 00 07 00 00 00 01 00 01 | 00 00 03 e8 ff fb 00 00 | 00 02 00 02 | 01 00 03 00 | 00 02 61 62")
}

/// B's message with every number turned.
pub fn big_of_b() -> Vec<u8> {
    let root = "00 08 00 01 00 07 00 01 00 02 00 01 | 00 00 03 e8 ff fb 09 00 | 00 02 00 02 01 00 03 00";
    octets(&[root, "00 04 00 01 00 00 00 2a", "00 02 61 62"].join("|"))
}

/// A big-endian message of template 1, schema 7, version 0: a root block, no groups, and what follows it.
pub fn big_rooted(block: &str, data: u16, rest: &str) -> Vec<u8> {
    let block = octets(block);
    let header = [block.len() as u16, 1, 7, 0, 0, data].into_iter().flat_map(u16::to_be_bytes);
    header.chain(block).chain(octets(rest)).collect()
}

pub fn listed(name: &'static str, book: Vec<u8>, message: Vec<u8>, listing: Result<Vec<Record>, Refusal>) -> Case {
    Case { name, book, message, expected: Expected::Listing(listing) }
}

fn head_cases() -> Vec<Case> {
    let of_order = |order| with_word(&a(), BYTE_ORDER, order);
    let body_later = |order| with_word(&of_order(order), 16, 11);
    let turned = |book: Vec<u8>| book.chunks(2).flat_map(|word| [word[1], word[0]]).collect();
    vec![
        book("byte order 0: accepted", of_order(LITTLE), Ok(())),
        book("byte order 1: accepted", of_order(BIG), Ok(())),
        book("byte order 2: 2", of_order(2), no(2, 0)),
        book("byte order 256, which is 1 turned: 2", of_order(256), no(2, 0)),
        book("byte order 65534: 2", of_order(65534), no(2, 0)),
        book("byte order 65535: 2", of_order(65535), no(2, 0)),
        book("byte order 2: 2 before 3", body_later(2), no(2, 0)),
        book("byte order 1, and a body that begins a word later: 3", body_later(BIG), no(3, 0)),
        book("a head of byte order 1 and no contents: 2", words(&[7, 0, 1, 7, 0, BIG, 2]), no(2, 0)),
        book("a book is little-endian: A turned: 2", turned(a()), no(2, 0)),
        book("a book for big-endian messages is, too: 2", turned(big(a())), no(2, 0)),
    ]
}

fn m_cases() -> Vec<Case> {
    vec![
        listed("M turned under A for big-endian messages: M's listing", big(a()), big_m(), Ok(m_under_a())),
        listed("M turned under B for big-endian messages", big(b()), big_m(), Ok(m_under_b())),
        listed("B's message turned under A for big-endian messages", big(a()), big_of_b(), Ok(b_under_a())),
        listed("M turned without its last octet: 16 at 28", big(a()), big_m()[..31].to_vec(), Err(refusal(16, 28))),
        listed("M turned with one more octet: 20 at 32", big(a()), [big_m(), vec![0]].concat(), Err(refusal(20, 32))),
        listed("an empty message by a book for big-endian ones: 10", big(a()), Vec::new(), Err(refusal(10, 0))),
    ]
}

/// Messages by the book of the other order.
fn other_cases() -> Vec<Case> {
    let schema_1792 = with_word(&a(), 0, 1792);
    let mut zeros = Book::read(&of(Block::default())).expect("a book");
    (zeros.schema, zeros.templates[0].id) = (0, 0);
    let (zeros, message) = (zeros.octets(), vec![0; 12]);
    vec![
        listed("M under A for big-endian messages: 12", big(a()), m(), Err(refusal(12, 4))),
        listed("M turned under A: 12", a(), big_m(), Err(refusal(12, 4))),
        listed("M turned under A of schema 1792, which is 7 turned: 13", schema_1792, big_m(), Err(refusal(13, 2))),
        listed("a little-endian message of zeros", zeros.clone(), message.clone(), Ok(Vec::new())),
        listed("a big-endian message of zeros", big(zeros), message, Ok(Vec::new())),
    ]
}

/// M turned with another number, most significant octet first.
fn with_number(at: usize, number: u16) -> Vec<u8> {
    with_word(&big_m(), at, number.swap_bytes())
}

fn header_cases() -> Vec<Case> {
    let case = |name, at, number, expected| listed(name, big(a()), with_number(at, number), expected);
    let no = |number, place| Err(refusal(number, place));
    vec![
        case("big-endian: block length 5: 14", 0, 5, no(14, 0)),
        case("big-endian: block length 6: the group begins with the padding: 18", 0, 6, no(18, 18)),
        case("big-endian: a block length that is not turned: 16 at 12", 0, 0x0800, no(16, 12)),
        case("big-endian: template 2: 13", 2, 2, no(13, 2)),
        case("big-endian: a template id that is not turned: 13", 2, 0x0100, no(13, 2)),
        case("big-endian: a schema id that is not turned: 12", 4, 0x0700, no(12, 4)),
        case("big-endian: version 255", 6, 255, Ok(m_under_a())),
        case("big-endian: version 65280", 6, 65280, Ok(m_under_a())),
        case("big-endian: version 65535: 11", 6, 65535, no(11, 6)),
        case("big-endian: 2 groups: 15 at 8", 8, 2, no(15, 8)),
        case("big-endian: a number of groups that is not turned: 15 at 8", 8, 0x0100, no(15, 8)),
        case("big-endian: 2 data: 15 at 10", 10, 2, no(15, 10)),
        case("big-endian: a number of data that is not turned: 15 at 10", 10, 0x0100, no(15, 10)),
    ]
}

/// A field that is there from version 2 on.
fn version_cases() -> Vec<Case> {
    let block = fields(1, vec![Field { since: 2, ..field(OCTET, 0, 0) }]);
    let book = big(books::book(300, vec![Template { id: 1, block }]).octets());
    let case = |name, version: u16, record| {
        let message = with_word(&big_rooted("07", 0, ""), 6, version.swap_bytes());
        listed(name, book.clone(), message, Ok(vec![record]))
    };
    vec![
        case("big-endian: a field since 2 at version 1: absent", 1, [3, 0, 0]),
        case("big-endian: a field since 2 at version 2", 2, [0, 7, 0]),
        case("big-endian: a field since 2 at version 256", 256, [0, 7, 0]),
    ]
}

/// The dimension stands at 20, the data's length at 28.
fn walk_cases() -> Vec<Case> {
    let refused =
        |name, at, word, number, place| listed(name, big(a()), with_number(at, word), Err(refusal(number, place)));
    vec![
        refused("big-endian: entries of no octets: 18", 20, 0, 18, 20),
        refused("big-endian: an entries' length that is not turned: 16 at the first", 20, 0x0200, 16, 24),
        refused("big-endian: entries of 65,535 octets: 17", 20, 65535, 17, 20),
        refused("big-endian: a number of entries that is not turned: 16 at the fifth", 22, 0x0200, 16, 32),
        refused("big-endian: 65,535 entries: 17", 22, 65535, 17, 20),
        refused("big-endian: a data of one octet: 20", 28, 1, 20, 31),
        refused("big-endian: a data's length that is not turned: 16", 28, 0x0200, 16, 28),
        refused("big-endian: a data of 65,534 octets: 16", 28, 65534, 16, 28),
        refused("big-endian: a data of 65,535 octets: 19", 28, 65535, 19, 28),
    ]
}

fn place_cases() -> Vec<Case> {
    let case = |name, steps: &[(u64, u64)], kind, element, answer: Result<Record, Refusal>| Case {
        name,
        book: big(a()),
        message: big_m(),
        expected: Expected::Place(Place { steps: steps.to_vec(), kind, element }, answer),
    };
    vec![
        case("place: the uint32 of M turned", &[], 0, 0, Ok([0, 1000, 0])),
        case("place: the int16 of M turned", &[], 0, 1, Ok([0, MINUS_5, 0])),
        case("place: the group of M turned", &[], 1, 0, Ok([4, 2, 0])),
        case("place: the second entry of M turned", &[(0, 1)], 0, 0, Ok([0, 3, 0])),
        case("place: the data of M turned", &[], 2, 0, Ok([2, 30, 2])),
        case("place: entry 2 of 2 of M turned: 31", &[(0, 2)], 0, 0, Err(refusal(31, 0))),
        case("place: a field that M's book lacks, M turned: 30", &[], 0, 2, Err(refusal(30, 0))),
    ]
}
