//! Texts, as they are read: what is before the first NUL, and null where an optional one starts with it. And what is no
//! text: a char of length 1, and an array of uint8.

use super::books::{self, field, fields, of, OCTET};
use super::calls::Call;
use super::listed::CHAR;
use super::messages::{of_block, rooted};
use super::writing::draft;
use super::{octets, Case, Expected};
use crate::readers::{lent, Free, Plain, Reader, Stream};
use crate::report::same;
use plain::{refusal, Block, Field, Group, Place, Record, Refusal, Template};

pub const REQUIRED: u16 = 0;
pub const OPTIONAL: u16 = 1;

/// The most octets of a text.
pub const LONGEST: u16 = 1024;

pub fn cases() -> Vec<Case> {
    [rule_cases(), short_cases(), long_cases(), octets_cases(), other_cases(), entry_cases(), young_cases()]
        .into_iter()
        .flatten()
        .collect()
}

pub fn text(length: u16, presence: u16) -> Field {
    Field { length, ..field(CHAR, 0, presence) }
}

pub fn array(length: u16, presence: u16) -> Field {
    Field { length, ..field(OCTET, 0, presence) }
}

/// A book whose template 1 is this field alone.
pub fn alone(field: Field) -> Vec<u8> {
    of(fields(field.octets() as u16, vec![field]))
}

/// The octets of such a field, and what they are read as.
fn read(name: &'static str, field: Field, octets: &str, record: Record) -> Case {
    Case { name, book: alone(field), message: rooted(octets, 0, ""), expected: Expected::Listing(Ok(vec![record])) }
}

/// The two texts of the rules, word by word.
fn rule_cases() -> Vec<Case> {
    let two = |name, block, listing: [Record; 2]| {
        let root = [10, 2, 0, 0, 55, 0, 6, 0, 0, 0, 0, 311, 0, 4, 6, 1, 0, 0];
        let book = books::words(&[&[7, 0, 1, 28, 0, 0, 2, 1, 10, 18], &root[..]].concat());
        Case { name, book, message: rooted(block, 0, ""), expected: Expected::Listing(Ok(listing.to_vec())) }
    };
    vec![
        two("MEAL and SOYA", "4d 45 41 4c 00 00 | 53 4f 59 41", [[2, 12, 4], [2, 18, 4]]),
        two(
            "MEAL, of which one octet is skipped, and null",
            "4d 45 41 4c 00 3f | 00 00 00 00",
            [[2, 12, 4], [1, 0, 0]],
        ),
        two("empty text, and null", "00 00 00 00 00 00 | 00 4f 59 41", [[2, 12, 0], [1, 0, 0]]),
    ]
}

fn short_cases() -> Vec<Case> {
    let (required, optional) = (text(2, REQUIRED), text(2, OPTIONAL));
    vec![
        read("a required text of two octets, no NUL: both", required, "41 42", [2, 12, 2]),
        read("a required text of two octets, NUL last: one", required, "41 00", [2, 12, 1]),
        read("a required text of two octets, NUL first: empty", required, "00 42", [2, 12, 0]),
        read("a required text of two NULs: empty", required, "00 00", [2, 12, 0]),
        read("an optional text of two octets, no NUL: both", optional, "41 42", [2, 12, 2]),
        read("an optional text of two octets, NUL last: one", optional, "41 00", [2, 12, 1]),
        read("an optional text of two octets, NUL first: null", optional, "00 42", [1, 0, 0]),
        read("an optional text of two NULs: null", optional, "00 00", [1, 0, 0]),
        read("a text with two NULs: the first ends it", text(4, REQUIRED), "41 00 42 00", [2, 12, 1]),
        read("a text with NULs first and last: null", text(4, OPTIONAL), "00 41 42 00", [1, 0, 0]),
    ]
}

/// As long as a text may be, with NUL at this position.
fn long(name: &'static str, presence: u16, nul: Option<usize>, record: Record) -> Case {
    let mut block = [b'A'; LONGEST as usize];
    if let Some(at) = nul {
        block[at] = 0;
    }
    let book = alone(text(LONGEST, presence));
    Case { name, book, message: of_block(&block, 0), expected: Expected::Listing(Ok(vec![record])) }
}

fn long_cases() -> Vec<Case> {
    vec![
        long("a required text of 1,024 octets, no NUL: all", REQUIRED, None, [2, 12, 1024]),
        long("a required text of 1,024 octets, NUL last: 1,023", REQUIRED, Some(1023), [2, 12, 1023]),
        long("a required text of 1,024 octets, NUL second: one", REQUIRED, Some(1), [2, 12, 1]),
        long("a required text of 1,024 octets, NUL first: empty", REQUIRED, Some(0), [2, 12, 0]),
        long("an optional text of 1,024 octets, no NUL: all", OPTIONAL, None, [2, 12, 1024]),
        long("an optional text of 1,024 octets, NUL last: 1,023", OPTIONAL, Some(1023), [2, 12, 1023]),
        long("an optional text of 1,024 octets, NUL second: one", OPTIONAL, Some(1), [2, 12, 1]),
        long("an optional text of 1,024 octets, NUL first: null", OPTIONAL, Some(0), [1, 0, 0]),
    ]
}

/// What a text's octets are makes no difference, but for NUL.
fn octets_cases() -> Vec<Case> {
    let all: Vec<u8> = (1..=255).collect();
    let every_octet = |name, presence| Case {
        name,
        book: alone(text(255, presence)),
        message: of_block(&all, 0),
        expected: Expected::Listing(Ok(vec![[2, 12, 255]])),
    };
    vec![
        every_octet("every octet but NUL in a required text: all of it", REQUIRED),
        every_octet("every octet but NUL in an optional text: all of it", OPTIONAL),
        read("a text of octets out of a char's range: all", text(4, OPTIONAL), "1f 7f 80 ff", [2, 12, 4]),
        read("a text that starts with 255: all", text(2, OPTIONAL), "ff ff", [2, 12, 2]),
        read("blanks at a text's end are the text's", text(4, REQUIRED), "41 20 20 00", [2, 12, 3]),
        read("a text of blanks: no null", text(2, OPTIONAL), "20 20", [2, 12, 2]),
    ]
}

fn other_cases() -> Vec<Case> {
    let (char, optional_char) = (field(CHAR, 0, REQUIRED), field(CHAR, 0, OPTIONAL));
    vec![
        read("a char of length 1: a number", char, "41", [0, 65, 0]),
        read("NUL in a required char of length 1: out of range", char, "00", [5, 0, 0]),
        read("NUL in an optional char of length 1: null", optional_char, "00", [1, 0, 0]),
        read("a uint8 array, NUL first: all of it", array(2, REQUIRED), "00 42", [2, 12, 2]),
        read("a uint8 array, NUL in its middle: all of it", array(4, REQUIRED), "41 00 00 42", [2, 12, 4]),
        read("a uint8 array of NULs: all of it", array(3, REQUIRED), "00 00 00", [2, 12, 3]),
        read("an optional uint8 array of NULs: all of it, no null", array(3, OPTIONAL), "00 00 00", [2, 12, 3]),
        read("an optional uint8 array of 255s: all of it, no null", array(2, OPTIONAL), "ff ff", [2, 12, 2]),
    ]
}

/// A group of entries with a uint8, an optional text of three octets and a uint8; and a data, which may have NULs.
fn entries() -> (Vec<u8>, Vec<u8>) {
    let entry = vec![field(OCTET, 0, 0), Field { offset: 1, ..text(3, OPTIONAL) }, field(OCTET, 4, 0)];
    let group = Group { id: 453, since: 0, block: fields(5, entry) };
    let book = of(Block { groups: vec![group], data: vec![books::DATA], ..Block::default() });
    let dimension = "00 00 01 00 07 00 00 00 01 00 01 00 | 05 00 04 00";
    let blocks = "01 61 62 00 02 | 03 00 62 63 04 | 05 61 62 63 06 | 07 61 00 63 08";
    (book, octets(&[dimension, blocks, "02 00 00 00"].join("|")))
}

fn entry_cases() -> Vec<Case> {
    let (book, message) = entries();
    let texts = [[2, 17, 2], [1, 0, 0], [2, 27, 3], [2, 32, 1]];
    let entry = |(number, text): (u64, Record)| [[0, 2 * number + 1, 0], text, [0, 2 * number + 2, 0]];
    let listing = [[4, 4, 0]].into_iter().chain((0..).zip(texts).flat_map(entry)).chain([[2, 38, 2]]).collect();
    let place = |name, entry, answer: Result<Record, Refusal>| Case {
        name,
        book: book.clone(),
        message: message.clone(),
        expected: Expected::Place(Place { steps: vec![(0, entry)], kind: 0, element: 1 }, answer),
    };
    vec![
        place("place: a text with NUL last", 0, Ok([2, 17, 2])),
        place("place: an optional text with NUL first: null", 1, Ok([1, 0, 0])),
        place("place: a text without NUL, and numbers beside it", 2, Ok([2, 27, 3])),
        place("place: a text with NUL in its middle", 3, Ok([2, 32, 1])),
        place("place: a text of entry 4 of 4: 31", 4, Err(refusal(31, 0))),
        Case {
            name: "texts in entries, and a data of NULs",
            book: book.clone(),
            message: message.clone(),
            expected: Expected::Listing(Ok(listing)),
        },
    ]
}

/// A text that is younger than the message, which has octets for it.
fn young_cases() -> Vec<Case> {
    let young = |presence| {
        let block = fields(4, vec![Field { since: 1, ..text(4, presence) }]);
        books::book(1, vec![Template { id: 1, block }]).octets()
    };
    let absent = |name, presence, octets| Case {
        name,
        book: young(presence),
        message: rooted(octets, 0, ""),
        expected: Expected::Listing(Ok(vec![[3, 0, 0]])),
    };
    vec![
        absent("a text that is younger than the message: absent", REQUIRED, "41 42 43 44"),
        absent("an optional one that has NULs there: absent, no null", OPTIONAL, "00 00 00 00"),
    ]
}

pub fn calls() -> [(&'static str, Call); 1] {
    [("a text is written back; what is after its first NUL only if it is zero", tails)]
}

/// Of a required and an optional text: the block that is read, and the block that its listing is written to.
fn tails() -> Result<(), String> {
    let block = fields(8, vec![text(4, REQUIRED), Field { offset: 4, ..text(4, OPTIONAL) }]);
    let blocks: [(&[u8; 8], &[u8; 8]); 7] = [
        (b"MEALSOYA", b"MEALSOYA"),
        (b"MEA\0SO\0\0", b"MEA\0SO\0\0"),
        (b"\0\0\0\0\0\0\0\0", b"\0\0\0\0\0\0\0\0"),
        (b"ME\0LSOYA", b"ME\0\0SOYA"),
        (b"MEALS\0\0A", b"MEALS\0\0\0"),
        (b"\0EALSOYA", b"\0\0\0\0SOYA"),
        (b"MEAL\0OYA", b"MEAL\0\0\0\0"),
    ];
    let (book, readers): (_, [&dyn Reader; 3]) = (of(block), [&Plain, &Free, &Stream]);
    for reader in readers {
        for (read, written) in blocks {
            let (message, mut listing, mut room) = (of_block(read, 0), vec![0; 6], lent(20));
            same(reader.name(), reader.list(&book, &message, &mut listing), Ok(2))?;
            let listing: Vec<Record> = listing.chunks(3).map(|record| [record[0], record[1], record[2]]).collect();
            same(reader.name(), reader.write(&book, &draft(&listing, &message), &mut room), Ok(20))?;
            same(reader.name(), room, of_block(written, 0))?;
        }
    }
    Ok(())
}
