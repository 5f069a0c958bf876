//! Texts, as they are written: filled with NUL, null where they are optional, and refused where they are too long, have
//! a NUL or are empty and optional. The plain octets of a uint8 array stay as they were.

use super::books::{field, fields, of, DATA, OCTET};
use super::listed::CHAR;
use super::messages::{of_block, rooted};
use super::texts::{alone, array, text, LONGEST, OPTIONAL, REQUIRED};
use super::writing::draft;
use super::{octets, Case, Expected};
use plain::{refusal, Block, Draft, Field, Group, Record, Refusal};

/// Its one NUL stands at 4.
const POOL: &[u8; 14] = b"MEAL\0SOYA-MEAL";
const ROOM: usize = 40;

pub fn cases() -> Vec<Case> {
    let written = [good_cases(), null_cases(), long_cases(), record_cases(), entry_cases()];
    let refused = [length_cases(), nul_cases(), pool_cases(), kind_cases(), array_cases()];
    written.into_iter().chain(refused).flatten().collect()
}

pub fn case(name: &'static str, book: Vec<u8>, draft: Draft, written: Result<Vec<u8>, Refusal>) -> Case {
    let room = written.as_ref().map_or(ROOM, |message| message.len() + 3);
    Case { name, book, message: Vec::new(), expected: Expected::Written(draft, room, written) }
}

/// One record for a book of one field, and the octets that it is written to, or the refusal's number.
fn one(name: &'static str, field: Field, record: Record, written: Result<&str, u64>) -> Case {
    let written = written.map(|octets| rooted(octets, 0, "")).map_err(|number| refusal(number, 0));
    case(name, alone(field), draft(&[record], POOL), written)
}

/// Texts of four octets.
const TEXT: Field = Field { id: 1, kind: CHAR, length: 4, offset: 0, presence: REQUIRED, since: 0, list: 0 };
const OPTIONAL_TEXT: Field = Field { presence: OPTIONAL, ..TEXT };

fn good_cases() -> Vec<Case> {
    let any = draft(&[[2, 0, 5]], b"\x01\x1f\x7f\x80\xff");
    let as_it_is = Ok(rooted("01 1f 7f 80 ff 00", 0, ""));
    vec![
        case("writing a text of octets out of a char's range", alone(text(6, OPTIONAL)), any, as_it_is),
        one("writing a text of its field's length", TEXT, [2, 0, 4], Ok("4d 45 41 4c")),
        one("writing a text that is one shorter: a NUL behind it", TEXT, [2, 0, 3], Ok("4d 45 41 00")),
        one("writing a text of one octet: NULs behind it", TEXT, [2, 0, 1], Ok("4d 00 00 00")),
        one("writing an empty text for a required field: NULs", TEXT, [2, 0, 0], Ok("00 00 00 00")),
        one("writing an empty text from the pool's NUL", TEXT, [2, 4, 0], Ok("00 00 00 00")),
        one("writing an empty text from the pool's end", TEXT, [2, 14, 0], Ok("00 00 00 00")),
        one("writing an optional text of its field's length", OPTIONAL_TEXT, [2, 0, 4], Ok("4d 45 41 4c")),
        one("writing an optional text of one octet", OPTIONAL_TEXT, [2, 0, 1], Ok("4d 00 00 00")),
        one("writing a text that starts behind the pool's NUL", TEXT, [2, 5, 4], Ok("53 4f 59 41")),
        one("writing a text up to the pool's end", TEXT, [2, 10, 4], Ok("4d 45 41 4c")),
        one("writing the pool's last octet as a text", TEXT, [2, 13, 1], Ok("4c 00 00 00")),
    ]
}

fn null_cases() -> Vec<Case> {
    vec![
        one("writing null for an optional text: NULs", OPTIONAL_TEXT, [1, 0, 0], Ok("00 00 00 00")),
        one("writing null for a required text: 52", TEXT, [1, 0, 0], Err(52)),
        one("writing null with a second number for an optional text: 51", OPTIONAL_TEXT, [1, 1, 0], Err(51)),
        one("writing null with a third number for an optional text: 51", OPTIONAL_TEXT, [1, 0, 1], Err(51)),
        one("writing null with a second number for a required text: 51 before 52", TEXT, [1, 1, 0], Err(51)),
        one("writing null with a third number for a required text: 51 before 52", TEXT, [1, 0, 1], Err(51)),
        one("writing null with the numbers of a text for an optional text: 51", OPTIONAL_TEXT, [1, 0, 4], Err(51)),
        one("writing null with 2^64 - 1 for an optional text: 51", OPTIONAL_TEXT, [1, u64::MAX, 0], Err(51)),
    ]
}

/// The longest text by a pool of two letters over and over.
fn long_cases() -> Vec<Case> {
    let length = usize::from(LONGEST);
    let pool = b"AB".repeat(length);
    let mut nul_last = pool.clone();
    nul_last[length - 1] = 0;
    let mut nul_behind = pool.clone();
    nul_behind[length] = 0;
    let long = |name, presence, pool: &[u8], count: usize, written: Result<(), u64>| {
        let mut block = vec![0; length];
        block[..count.min(length)].copy_from_slice(&pool[..count.min(length)]);
        let written = written.map(|()| of_block(&block, 0)).map_err(|number| refusal(number, 0));
        case(name, alone(text(LONGEST, presence)), draft(&[[2, 0, count as u64]], pool), written)
    };
    vec![
        long("writing a text of 1,024 octets", REQUIRED, &pool, 1024, Ok(())),
        long("writing a text of 1,024 octets, a NUL behind it in the pool", OPTIONAL, &nul_behind, 1024, Ok(())),
        long("writing a text of 1,023 octets for 1,024", REQUIRED, &pool, 1023, Ok(())),
        long("writing a text of 1,025 octets for 1,024: 53", REQUIRED, &pool, 1025, Err(53)),
        long("writing an optional text of 1,025 octets for 1,024: 53", OPTIONAL, &pool, 1025, Err(53)),
        long("writing a text of 1,024 octets, NUL last: 53", REQUIRED, &nul_last, 1024, Err(53)),
        long("writing a text of 1,023 octets before that NUL", REQUIRED, &nul_last, 1023, Ok(())),
    ]
}

fn length_cases() -> Vec<Case> {
    vec![
        one("writing a text that is one longer than its field: 53", TEXT, [2, 5, 5], Err(53)),
        one("writing an optional text that is one longer than its field: 53", OPTIONAL_TEXT, [2, 5, 5], Err(53)),
        one("writing a text that is much longer than its field: 53", TEXT, [2, 5, 9], Err(53)),
        one("writing an empty text for an optional field: 53", OPTIONAL_TEXT, [2, 0, 0], Err(53)),
        one("writing an empty text from the pool's end for an optional field: 53", OPTIONAL_TEXT, [2, 14, 0], Err(53)),
    ]
}

fn nul_cases() -> Vec<Case> {
    vec![
        one("writing a text with NUL first: 53", TEXT, [2, 4, 4], Err(53)),
        one("writing a text with NUL in its middle: 53", TEXT, [2, 2, 4], Err(53)),
        one("writing a text with NUL last: 53", TEXT, [2, 1, 4], Err(53)),
        one("writing a NUL as a text: 53", TEXT, [2, 4, 1], Err(53)),
        one("writing an optional text with NUL first: 53", OPTIONAL_TEXT, [2, 4, 4], Err(53)),
        one("writing an optional text with NUL in its middle: 53", OPTIONAL_TEXT, [2, 2, 4], Err(53)),
        one("writing an optional text with NUL last: 53", OPTIONAL_TEXT, [2, 1, 4], Err(53)),
        one("writing a NUL as an optional text: 53", OPTIONAL_TEXT, [2, 4, 1], Err(53)),
        one("writing a text that is one longer than its field by a NUL: 53", TEXT, [2, 0, 5], Err(53)),
    ]
}

fn pool_cases() -> Vec<Case> {
    let top = u64::MAX;
    vec![
        one("writing a text that ends past the pool: 53", TEXT, [2, 11, 4], Err(53)),
        one("writing a text that starts at the pool's end: 53", TEXT, [2, 14, 1], Err(53)),
        one("writing a text that starts past the pool: 53", TEXT, [2, 15, 4], Err(53)),
        one("writing an empty text from past the pool: 53", TEXT, [2, 15, 0], Err(53)),
        one("writing an optional text that starts past the pool: 53", OPTIONAL_TEXT, [2, 15, 4], Err(53)),
        one("writing a text from 2^64 - 4 does not wrap to 0: 53", TEXT, [2, top - 3, 4], Err(53)),
        one("writing a text from 2^64 - 1 does not wrap to 0: 53", TEXT, [2, top, 1], Err(53)),
        one("writing an empty text from 2^64 - 1: 53", TEXT, [2, top, 0], Err(53)),
        one("writing a text of 2^64 - 1 octets: 53", TEXT, [2, 0, top], Err(53)),
        one("writing a text of 2^64 - 5 octets from 5 does not wrap to 0: 53", TEXT, [2, 5, top - 4], Err(53)),
        one("writing a text of 2^32 + 4 octets: 53", TEXT, [2, 0, (1 << 32) + 4], Err(53)),
    ]
}

fn kind_cases() -> Vec<Case> {
    vec![
        one("writing a number for a text: 51", TEXT, [0, 65, 0], Err(51)),
        one("writing the numbers of a text as kind 0: 51", TEXT, [0, 0, 4], Err(51)),
        one("writing absent for a text: 51", OPTIONAL_TEXT, [3, 0, 0], Err(51)),
        one("writing a group for a text: 51", TEXT, [4, 0, 0], Err(51)),
        one("writing the numbers of a text as kind 4: 51", TEXT, [4, 0, 4], Err(51)),
        one("writing kind 5 for a text: 51", OPTIONAL_TEXT, [5, 0, 0], Err(51)),
        one("writing kind 6 for a text: 51", OPTIONAL_TEXT, [6, 65, 0], Err(51)),
        one("writing kind 7 for a text: 51", TEXT, [7, 0, 4], Err(51)),
        one("writing kind 2^32 + 2 for a text: 51", TEXT, [(1 << 32) + 2, 0, 4], Err(51)),
        one("writing kind 2^32 + 1 for a text: 51", OPTIONAL_TEXT, [(1 << 32) + 1, 0, 0], Err(51)),
        one("writing kind 3 past the pool for a text: 51 before 53", TEXT, [3, 15, 4], Err(51)),
        one("writing a char of length 1 as octets: 51", field(CHAR, 0, 0), [2, 0, 1], Err(51)),
    ]
}

/// What is no text: uint8 arrays, and a char of length 1.
fn array_cases() -> Vec<Case> {
    let (required, optional) = (array(4, REQUIRED), array(4, OPTIONAL));
    vec![
        one("writing a uint8 array with NUL first", required, [2, 4, 4], Ok("00 53 4f 59")),
        one("writing a uint8 array with NUL in its middle", optional, [2, 2, 4], Ok("41 4c 00 53")),
        one("writing a uint8 array with NUL last", required, [2, 1, 4], Ok("45 41 4c 00")),
        one("writing null for a required uint8 array: 51, not 52", required, [1, 0, 0], Err(51)),
        one("writing an optional uint8 array that is one shorter: 53", optional, [2, 0, 3], Err(53)),
        one("writing an optional uint8 array that is one longer: 53", optional, [2, 5, 5], Err(53)),
        one("writing an empty uint8 array for an optional field: 53", optional, [2, 0, 0], Err(53)),
        one("writing null for an optional char of length 1", field(CHAR, 0, OPTIONAL), [1, 0, 0], Ok("00")),
        one("writing null for a required char of length 1: 52", field(CHAR, 0, REQUIRED), [1, 0, 0], Err(52)),
    ]
}

/// A required text, a uint8 and an optional text side by side.
fn record_cases() -> Vec<Case> {
    let fields = fields(9, vec![TEXT, field(OCTET, 4, REQUIRED), Field { offset: 5, ..OPTIONAL_TEXT }]);
    let good = [[2, 0, 3], [0, 7, 0], [2, 5, 4]];
    let with = |changes: &[(usize, Record)]| {
        let mut records = good.to_vec();
        changes.iter().for_each(|&(number, record)| records[number] = record);
        draft(&records, POOL)
    };
    let of_good = rooted("4d 45 41 00 07 53 4f 59 41", 0, "");
    let book = of(fields);
    let case = |name, draft, written| case(name, book.clone(), draft, written);
    let no = |number, place| Err(refusal(number, place));
    let cut = Draft { listing: good.concat()[..8].to_vec(), ..with(&[]) };
    let twice = with(&[(0, [2, 5, 4]), (2, [2, 5, 4])]);
    vec![
        case("writing two texts and a number between them", with(&[]), Ok(of_good)),
        case("writing one text twice", twice, Ok(rooted("53 4f 59 41 07 53 4f 59 41", 0, ""))),
        case("writing a text with a NUL as the third record: 53 at 2", with(&[(2, [2, 1, 4])]), no(53, 2)),
        case(
            "writing: 53 of the first record before 53 of the third",
            with(&[(0, [2, 1, 4]), (2, [2, 1, 4])]),
            no(53, 0),
        ),
        case("writing: 53 of a text before 51 of the next record", with(&[(0, [2, 0, 5]), (1, [3, 0, 0])]), no(53, 0)),
        case("writing: 52 of a number before 53 of a text", with(&[(1, [0, 255, 0]), (2, [2, 0, 0])]), no(52, 1)),
        case(
            "writing: 52 of a null text before 51 of the next record",
            with(&[(0, [1, 0, 0]), (1, [2, 0, 0])]),
            no(52, 0),
        ),
        case("writing two numbers of a text's record: 51 at 2", cut, no(51, 2)),
    ]
}

/// Entries of an optional text, and a data.
fn entry_cases() -> Vec<Case> {
    let group = Group { id: 453, since: 0, block: fields(4, vec![OPTIONAL_TEXT]) };
    let book = of(Block { groups: vec![group], data: vec![DATA], ..Block::default() });
    let whole =
        "00 00 01 00 07 00 00 00 01 00 01 00 | 04 00 03 00 | 4d 45 41 4c | 00 00 00 00 | 53 4f 00 00 | 02 00 4c 00";
    let with = |third| draft(&[[4, 3, 0], [2, 0, 4], [1, 0, 0], third, [2, 3, 2]], POOL);
    let case = |name, third, room, written| Case {
        name,
        book: book.clone(),
        message: Vec::new(),
        expected: Expected::Written(with(third), room, written),
    };
    let no = |number, place| Err(refusal(number, place));
    vec![
        case("writing texts in entries, one of them null, and a data with a NUL", [2, 5, 2], 34, Ok(octets(whole))),
        case("writing an empty text in the third entry: 53 at 3", [2, 5, 0], ROOM, no(53, 3)),
        case("writing a text with a NUL in the third entry: 53 at 3", [2, 4, 2], ROOM, no(53, 3)),
        case("writing: 55 after 53 of a text", [2, 4, 2], 0, no(53, 3)),
        case("writing texts into one octet less than they need: 55", [2, 5, 2], 31, no(55, 0)),
    ]
}
