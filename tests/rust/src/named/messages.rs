//! The rules' own messages, and the answers that the rules give.

use super::books::{a, b, field, fields, of, DATA, OCTET};
use super::{octets, with_word, Case, Expected};
use plain::{refusal, Block, Place, Record, Refusal};

/// Message M of the rules.
pub fn m() -> Vec<u8> {
    octets("08 00 01 00 07 00 00 00 01 00 01 00 | e8 03 00 00 fb ff 00 00 | 02 00 02 00 | 01 00 03 00 | 02 00 61 62")
}

/// Book B's message of the rules, with 9 and one entry 42.
pub fn of_b() -> Vec<u8> {
    let root = "08 00 01 00 07 00 01 00 02 00 01 00 | e8 03 00 00 fb ff 09 00 | 02 00 02 00 01 00 03 00";
    octets(&[root, "04 00 01 00 2a 00 00 00", "02 00 61 62"].join("|"))
}

pub const MINUS_5: u64 = 18446744073709551611;

pub fn m_under_a() -> Vec<Record> {
    vec![[0, 1000, 0], [0, MINUS_5, 0], [4, 2, 0], [0, 1, 0], [0, 3, 0], [2, 30, 2]]
}

/// M's listing under B: the new field and the new group are absent.
pub fn m_under_b() -> Vec<Record> {
    let mut listing = m_under_a();
    listing.insert(5, [3, 0, 0]);
    listing.insert(2, [3, 0, 0]);
    listing
}

pub fn b_under_a() -> Vec<Record> {
    let mut listing = m_under_a();
    listing[5] = [2, 38, 2];
    listing
}

/// A message of template 1, schema 7, version 0: a root block, no groups, and what follows it.
pub fn rooted(block: &str, data: u16, rest: &str) -> Vec<u8> {
    [of_block(&octets(block), data), octets(rest)].concat()
}

/// Its header, with this number of data, and its root block.
pub fn of_block(block: &[u8], data: u16) -> Vec<u8> {
    let header = [block.len() as u16, 1, 7, 0, 0, data];
    header.iter().flat_map(|number| number.to_le_bytes()).chain(block.iter().copied()).collect()
}

pub fn cases() -> Vec<Case> {
    let listed = |name, book, message, listing: Result<Vec<Record>, Refusal>| Case {
        name,
        book,
        message,
        expected: Expected::Listing(listing),
    };
    let (m, no) = (m(), |number, place| Err(refusal(number, place)));
    let int8 = || of(fields(1, vec![field(1, 0, 1)]));
    let mut cases = vec![
        listed("M under A", a(), m.clone(), Ok(m_under_a())),
        listed("M under B", b(), m.clone(), Ok(m_under_b())),
        listed("B's message under A", a(), of_b(), Ok(b_under_a())),
        listed("M without its last octet: 16 at 28", a(), m[..31].to_vec(), no(16, 28)),
        listed("M with one more octet: 20 at 32", a(), [&m[..], &[0]].concat(), no(20, 32)),
        listed("an empty message: 10 at 0", a(), Vec::new(), no(10, 0)),
        listed("M with block length 5: 14 at 0", a(), with_word(&m, 0, 5), no(14, 0)),
        listed("M with version 65535: 11 at 6", a(), with_word(&m, 6, 65535), no(11, 6)),
        listed("M with 2 groups at version 0: 15 at 8", a(), with_word(&m, 8, 2), no(15, 8)),
        listed("M with data length 65535: 19 at 28", a(), with_word(&m, 28, 65535), no(19, 28)),
        listed("M with data length 65534: 16 at 28", a(), with_word(&m, 28, 65534), no(16, 28)),
        listed("optional int8, octet 128: null", int8(), rooted("80", 0, ""), Ok(vec![[1, 0, 0]])),
        listed("optional int8, octet 129: -127", int8(), rooted("81", 0, ""), Ok(vec![[0, 127u64.wrapping_neg(), 0]])),
    ];
    cases.extend(document_cases(listed));
    cases.extend(place_cases());
    cases
}

fn document_cases(listed: impl Fn(&'static str, Vec<u8>, Vec<u8>, Result<Vec<Record>, Refusal>) -> Case) -> Vec<Case> {
    let uint32 = of(fields(4, vec![field(6, 0, 0)]));
    let data = of(Block { data: vec![DATA], ..Block::default() });
    let month_year = vec![field(4, 0, 0), field(OCTET, 2, 0), field(OCTET, 3, 1), field(OCTET, 4, 0)];
    let year_to_week = vec![[0, 2014, 0], [0, 6, 0], [1, 0, 0], [0, 3, 0]];
    let required = of(fields(1, vec![field(1, 0, 0)]));
    let least = vec![[5, 128u64.wrapping_neg(), 0]];
    let (msft, month) = (rooted("", 1, "04 00 4d 53 46 54"), rooted("de 07 06 ff 03", 0, ""));
    vec![
        listed("10 27 00 00 as uint32: 10000", uint32, rooted("10 27 00 00", 0, ""), Ok(vec![[0, 10000, 0]])),
        listed("04 00 4d 53 46 54: data MSFT", data, msft, Ok(vec![[2, 14, 4]])),
        listed("de 07 06 ff 03: 2014, 6, null day, week 3", of(fields(5, month_year)), month, Ok(year_to_week)),
        listed("required int8 that holds -128: out of range", required, rooted("80", 0, ""), Ok(least)),
        listed("a root without elements lists nothing", of(Block::default()), rooted("", 0, ""), Ok(vec![])),
    ]
}

fn place_cases() -> Vec<Case> {
    let case = |name, book, steps: &[(u64, u64)], kind, element, answer: Result<Record, Refusal>| Case {
        name,
        book,
        message: m(),
        expected: Expected::Place(Place { steps: steps.to_vec(), kind, element }, answer),
    };
    let no = |number| Err(refusal(number, 0));
    vec![
        case("place: M's second entry under A", a(), &[(0, 1)], 0, 0, Ok([0, 3, 0])),
        case("place: M's group under A", a(), &[], 1, 0, Ok([4, 2, 0])),
        case("place: M's data under B", b(), &[], 2, 0, Ok([2, 30, 2])),
        case("place: M's new field under B: absent", b(), &[], 0, 2, Ok([3, 0, 0])),
        case("place: M's new group under B: absent", b(), &[], 1, 1, Ok([3, 0, 0])),
        case("place: a field that the book lacks: 30", a(), &[], 0, 2, no(30)),
        case("place: a step that the book lacks: 30", a(), &[(1, 0)], 0, 0, no(30)),
        case("place: five steps: 30", a(), &[(0, 0); 5], 0, 0, no(30)),
        case("place: a kind that there is not: 30", a(), &[], 3, 0, no(30)),
        case("place: entry 2 of 2: 31", a(), &[(0, 2)], 0, 0, no(31)),
        case("place: an entry of an absent group: 31", b(), &[(1, 0)], 0, 0, no(31)),
        case("place: 30 before 31", a(), &[(0, 2)], 0, 1, no(30)),
        case("place: numbers near 2^64", a(), &[(0, u64::MAX)], 0, 0, no(31)),
    ]
}
