//! Listings that are refused, with the place of each refusal. They are M's listing under A with a little altered,
//! where nothing else is said.

use super::books::{a, field, fields, of, DATA, OCTET};
use super::messages::m;
use super::writing::{draft, draft_of_m};
use super::{Case, Expected};
use plain::{refusal, Block, Draft, Field, Record};

const ROOM: usize = 40;

pub fn refused(name: &'static str, book: Vec<u8>, draft: Draft, room: usize, number: u64, place: usize) -> Case {
    let expected = Expected::Written(draft, room, Err(refusal(number, place)));
    Case { name, book, message: Vec::new(), expected }
}

/// M's listing with one record replaced, which is the one at fault.
fn with(name: &'static str, place: usize, record: Record, number: u64) -> Case {
    let mut draft = draft_of_m();
    draft.listing[3 * place..3 * place + 3].copy_from_slice(&record);
    refused(name, a(), draft, ROOM, number, place)
}

/// M's listing cut or grown to so many numbers.
fn long(name: &'static str, numbers: usize, room: usize, place: usize) -> Case {
    let mut draft = draft_of_m();
    draft.listing.resize(numbers, 0);
    refused(name, a(), draft, room, 51, place)
}

/// One record for a field of one type.
fn alone(name: &'static str, field: Field, record: Record, number: u64) -> Case {
    let octets = field.octets() as u16;
    refused(name, of(fields(octets, vec![field])), draft(&[record], b"some octets"), ROOM, number, 0)
}

pub fn cases() -> Vec<Case> {
    [template_cases(), record_cases(), kind_cases(), number_cases(), octets_cases(), entries_cases(), room_cases()]
        .into_iter()
        .flatten()
        .collect()
}

fn template_cases() -> Vec<Case> {
    let of_template = |template| Draft { template, ..draft_of_m() };
    let nothing = Draft { template: 2, listing: Vec::new(), pool: Vec::new() };
    vec![
        refused("writing template 2 under A: 50", a(), of_template(2), ROOM, 50, 0),
        refused("writing template 65535: 50", a(), of_template(65535), ROOM, 50, 0),
        refused("writing: 50 before 51 and 55", a(), nothing.clone(), 0, 50, 0),
        refused("writing: the book's refusal before 50", a()[..85].to_vec(), nothing, ROOM, 1, 0),
    ]
}

fn record_cases() -> Vec<Case> {
    vec![
        long("writing no records: 51 at 0", 0, ROOM, 0),
        long("writing with the last record missing: 51 at 5", 15, ROOM, 5),
        long("writing with one number of the last record: 51 at 5", 16, ROOM, 5),
        long("writing with two numbers of the last record: 51 at 5", 17, ROOM, 5),
        long("writing with one number left over: 51 at 6", 19, ROOM, 6),
        long("writing with two numbers left over: 51 at 6", 20, ROOM, 6),
        long("writing with a record left over: 51 at 6", 21, ROOM, 6),
        long("writing with three records left over: 51 at 6", 27, ROOM, 6),
        long("writing: 55 after 51", 21, 0, 6),
        long("writing: 55 after 51, of a missing record", 15, 5, 5),
    ]
}

fn kind_cases() -> Vec<Case> {
    let array = Field { length: 4, ..field(OCTET, 0, 1) };
    vec![
        with("writing absent: 51", 1, [3, 0, 0], 51),
        with("writing out of range: 51", 1, [5, 7, 0], 51),
        with("writing kind 6: 51", 1, [6, 0, 0], 51),
        with("writing kind 2^32: 51", 1, [1 << 32, 7, 0], 51),
        with("writing octets for a number: 51", 0, [2, 0, 4], 51),
        with("writing a group for a number: 51", 0, [4, 0, 0], 51),
        with("writing a number for a group: 51", 2, [0, 2, 0], 51),
        with("writing null for a group: 51", 2, [1, 0, 0], 51),
        with("writing an absent group: 51", 2, [3, 0, 0], 51),
        with("writing a number for data: 51", 5, [0, 2, 0], 51),
        with("writing null for data: 51", 5, [1, 0, 0], 51),
        with("writing absent data: 51", 5, [3, 0, 0], 51),
        alone("writing null for an optional uint8 array: 51", array, [1, 0, 0], 51),
        alone("writing a number for a uint8 array: 51", array, [0, 65, 0], 51),
        with("writing a number with a third number: 51", 0, [0, 1000, 1], 51),
        with("writing null with a second number: 51", 1, [1, 1, 0], 51),
        with("writing null with a third number: 51", 1, [1, 0, 1], 51),
        with("writing a group with a third number: 51", 2, [4, 2, 1], 51),
        with("writing: 51 before 52", 1, [0, 65531, 1], 51),
        with("writing: 51 before 54", 2, [4, 65535, 1], 51),
    ]
}

fn number_cases() -> Vec<Case> {
    let minus = |value: u64| value.wrapping_neg();
    vec![
        with("writing null for a required field: 52", 0, [1, 0, 0], 52),
        with("writing 65531 as an int16: 52", 1, [0, 65531, 0], 52),
        with("writing -32768 as an int16, its null: 52", 1, [0, minus(32768), 0], 52),
        with("writing 32768 as an int16: 52", 1, [0, 32768, 0], 52),
        with("writing -32769 as an int16: 52", 1, [0, minus(32769), 0], 52),
        with("writing 4294967295 as a uint32, its null: 52", 0, [0, 4294967295, 0], 52),
        with("writing 4294968296 as a uint32: 52", 0, [0, 4294968296, 0], 52),
        with("writing -1 as a uint32: 52", 0, [0, minus(1), 0], 52),
        with("writing 255 as a uint8 of an entry, its null: 52", 3, [0, 255, 0], 52),
        with("writing 256 as a uint8 of an entry: 52", 4, [0, 256, 0], 52),
        alone("writing 31 as a char: 52", field(0, 0, 0), [0, 31, 0], 52),
        alone("writing 127 as a char: 52", field(0, 0, 0), [0, 127, 0], 52),
        alone("writing 0 as an optional char, its null: 52", field(0, 0, 1), [0, 0, 0], 52),
        alone("writing -2^63 as an int64, its null: 52", field(7, 0, 1), [0, 1 << 63, 0], 52),
        alone("writing 2^64 - 1 as a uint64, its null: 52", field(8, 0, 1), [0, u64::MAX, 0], 52),
    ]
}

fn octets_cases() -> Vec<Case> {
    let array = Field { length: 4, ..field(OCTET, 0, 0) };
    let one_data = of(Block { data: vec![DATA], ..Block::default() });
    let of_data = |length: usize| draft(&[[2, 0, length as u64]], &vec![7; length]);
    let top = u64::MAX;
    vec![
        with("writing octets that end past the pool: 53", 5, [2, 31, 2], 53),
        with("writing octets that start past the pool: 53", 5, [2, 33, 2], 53),
        with("writing no octets from past the pool: 53", 5, [2, 33, 0], 53),
        with("writing: a start of 2^64 - 2 and two octets do not wrap to 0: 53", 5, [2, top - 1, 2], 53),
        with("writing: a start of 2^64 - 1 and two octets do not wrap to 1: 53", 5, [2, top, 2], 53),
        with("writing no octets from 2^64 - 1: 53", 5, [2, top, 0], 53),
        with("writing 2^64 - 30 octets from 30 do not wrap to 0: 53", 5, [2, 30, top - 29], 53),
        with("writing 2^64 - 1 octets: 53", 5, [2, 0, top], 53),
        with("writing 2^63 octets from 2^63 do not wrap to 0: 53", 5, [2, 1 << 63, 1 << 63], 53),
        with("writing 2^32 + 2 octets: 53", 5, [2, 30, (1 << 32) + 2], 53),
        alone("writing three octets for a uint8 array of four: 53", array, [2, 0, 3], 53),
        alone("writing five octets for a uint8 array of four: 53", array, [2, 0, 5], 53),
        alone("writing no octets for a uint8 array of four: 53", array, [2, 0, 0], 53),
        alone("writing a uint8 array that ends past the pool: 53", array, [2, 8, 4], 53),
        alone("writing a uint8 array from 2^64 - 4 does not wrap to 0: 53", array, [2, top - 3, 4], 53),
        refused("writing data of 65,535 octets: 53", one_data.clone(), of_data(65535), 66000, 53, 0),
        refused("writing data of 65,534 octets: 55", one_data, of_data(65534), 66000, 55, 0),
    ]
}

fn entries_cases() -> Vec<Case> {
    let mut more = draft_of_m();
    more.listing[7] = 65534;
    let mut both = draft_of_m();
    both.listing[7] = 65535;
    both.listing.truncate(12);
    vec![
        with("writing 65,535 entries: 54", 2, [4, 65535, 0], 54),
        with("writing 65,536 entries: 54", 2, [4, 65536, 0], 54),
        with("writing 2^32 + 2 entries: 54", 2, [4, (1 << 32) + 2, 0], 54),
        with("writing 2^64 - 1 entries: 54", 2, [4, u64::MAX, 0], 54),
        refused("writing 65,534 entries with records for two: 51 at 5", a(), more, ROOM, 51, 5),
        refused("writing: the first record at fault, 54 at 2 before 51 at 4", a(), both, ROOM, 54, 2),
    ]
}

fn room_cases() -> Vec<Case> {
    let mut past = draft_of_m();
    past.listing[16] = m().len() as u64;
    vec![
        refused("writing M into 31 octets: 55", a(), draft_of_m(), 31, 55, 0),
        refused("writing M into 12 octets: 55", a(), draft_of_m(), 12, 55, 0),
        refused("writing M into no room: 55", a(), draft_of_m(), 0, 55, 0),
        refused("writing: 55 after 53 of the last record", a(), past, 11, 53, 5),
    ]
}
