//! Big-endian numbers in fields: every width, with and without a sign, and nulls. And what is no number and not turned:
//! texts, arrays and the octets of a data.

use super::books::{enumeration, field, fields, of, set, DATA, OCTET};
use super::byte_orders::{big, big_rooted, listed};
use super::listed::{over, CHAR, UINT16, UINT64};
use super::messages::MINUS_5;
use super::texts::{alone, array, text, OPTIONAL, REQUIRED};
use super::Case;
use plain::{Block, Field, Record};

const INT8: u16 = 1;
const INT16: u16 = 3;
const INT32: u16 = 5;
const UINT32: u16 = 6;
const INT64: u16 = 7;

pub fn cases() -> Vec<Case> {
    [number_cases(), negative_cases(), null_cases(), octets_cases(), list_cases()].into_iter().flatten().collect()
}

/// The octets of this field alone, and what they are read as.
fn read(name: &'static str, field: Field, octets: &str, record: Record) -> Case {
    listed(name, big(alone(field)), big_rooted(octets, 0, ""), Ok(vec![record]))
}

fn required(kind: u16) -> Field {
    field(kind, 0, REQUIRED)
}

fn optional(kind: u16) -> Field {
    field(kind, 0, OPTIONAL)
}

fn number_cases() -> Vec<Case> {
    let month_year = vec![field(UINT16, 0, 0), field(OCTET, 2, 0), field(OCTET, 3, 1), field(OCTET, 4, 0)];
    let year_to_week = vec![[0, 2014, 0], [0, 6, 0], [1, 0, 0], [0, 3, 0]];
    let (book, message) = (big(of(fields(5, month_year))), big_rooted("07 de 06 ff 03", 0, ""));
    let (of_int64, of_uint64) = ("01 02 03 04 05 06 07 08", "f1 f2 f3 f4 f5 f6 f7 f8");
    vec![
        read("00 00 27 10 as a big-endian uint32: 10000", required(UINT32), "00 00 27 10", [0, 10000, 0]),
        read("10 27 00 00 as a big-endian uint32", required(UINT32), "10 27 00 00", [0, 0x1027_0000, 0]),
        read("01 02 as a big-endian uint16", required(UINT16), "01 02", [0, 0x0102, 0]),
        read("01 to 04 as a big-endian int32", required(INT32), "01 02 03 04", [0, 0x0102_0304, 0]),
        read("01 to 08 as a big-endian int64", required(INT64), of_int64, [0, 0x0102_0304_0506_0708, 0]),
        read("f1 to f8 as a big-endian uint64", required(UINT64), of_uint64, [0, 0xf1f2_f3f4_f5f6_f7f8, 0]),
        read("a uint8 has no order", required(OCTET), "f1", [0, 0xf1, 0]),
        read("an int8 has no order", required(INT8), "fb", [0, MINUS_5, 0]),
        read("a char has no order", required(CHAR), "41", [0, 65, 0]),
        listed("07 de 06 ff 03, big-endian: 2014, 6, null day, week 3", book, message, Ok(year_to_week)),
    ]
}

fn negative_cases() -> Vec<Case> {
    let minus = |value: u64| [0, value.wrapping_neg(), 0];
    vec![
        read("ff fb as a big-endian int16: -5", required(INT16), "ff fb", minus(5)),
        read("fb ff as a big-endian int16: -1025", required(INT16), "fb ff", minus(1025)),
        read("80 01 as a big-endian int16: the least", required(INT16), "80 01", minus(32767)),
        read("ff ff ff fb as a big-endian int32: -5", required(INT32), "ff ff ff fb", minus(5)),
        read("fb ff ff ff as a big-endian int32", required(INT32), "fb ff ff ff", minus(0x0400_0001)),
        read("-5 as a big-endian int64", required(INT64), "ff ff ff ff ff ff ff fb", minus(5)),
        read("the least big-endian int64", required(INT64), "80 00 00 00 00 00 00 01", minus((1 << 63) - 1)),
    ]
}

fn null_cases() -> Vec<Case> {
    let null = [1, 0, 0];
    let least = |bits: u32| [5, (1u64 << (bits - 1)).wrapping_neg(), 0];
    let (of_int64, ones) = ("80 00 00 00 00 00 00 00", "ff ff ff ff ff ff ff ff");
    vec![
        read("null in a big-endian int16", optional(INT16), "80 00", null),
        read("00 80 in a big-endian int16: 128", optional(INT16), "00 80", [0, 128, 0]),
        read("null in a required big-endian int16: out of range", required(INT16), "80 00", least(16)),
        read("null in a big-endian uint16", optional(UINT16), "ff ff", null),
        read("the greatest big-endian uint16", optional(UINT16), "ff fe", [0, 65534, 0]),
        read("fe ff in a big-endian uint16: 65279", optional(UINT16), "fe ff", [0, 65279, 0]),
        read("null in a big-endian int32", optional(INT32), "80 00 00 00", null),
        read("00 00 00 80 in a big-endian int32: 128", optional(INT32), "00 00 00 80", [0, 128, 0]),
        read("null in a required big-endian int32: out of range", required(INT32), "80 00 00 00", least(32)),
        read("null in a big-endian uint32", optional(UINT32), "ff ff ff ff", null),
        read("the greatest big-endian uint32", optional(UINT32), "ff ff ff fe", [0, (1 << 32) - 2, 0]),
        read("null in a big-endian int64", optional(INT64), of_int64, null),
        read("128 in a big-endian int64", optional(INT64), "00 00 00 00 00 00 00 80", [0, 128, 0]),
        read("null in a required big-endian int64: out of range", required(INT64), of_int64, least(64)),
        read("null in a big-endian uint64", optional(UINT64), ones, null),
        read("the greatest big-endian uint64", optional(UINT64), "ff ff ff ff ff ff ff fe", [0, u64::MAX - 1, 0]),
    ]
}

/// Of a data the length alone is a number.
fn octets_cases() -> Vec<Case> {
    let data = big(of(Block { data: vec![DATA], ..Block::default() }));
    let msft = big_rooted("", 1, "00 04 4d 53 46 54");
    let nul_first = "00 42 43 44 45 46 47 48";
    vec![
        read("a text is not turned: its first NUL ends it", text(4, REQUIRED), "4d 45 00 00", [2, 12, 2]),
        read("a text of two octets is not turned: NUL last", text(2, OPTIONAL), "41 00", [2, 12, 1]),
        read("a text of two octets is not turned: NUL first", text(2, OPTIONAL), "00 41", [1, 0, 0]),
        read("a text of eight octets is not turned: NUL first", text(8, REQUIRED), nul_first, [2, 12, 0]),
        read("a uint8 array beside big-endian numbers", array(4, REQUIRED), "01 02 03 04", [2, 12, 4]),
        listed("00 04 4d 53 46 54, big-endian: data MSFT", data, msft, Ok(vec![[2, 14, 4]])),
    ]
}

/// A list's numbers are the book's own, and values are compared with them.
fn list_cases() -> Vec<Case> {
    let one = |name, book, octets, record| listed(name, big(book), big_rooted(octets, 0, ""), Ok(vec![record]));
    let value = || over(&enumeration(4, &[256]), UINT16, REQUIRED);
    let bit = |bit, kind| over(&set(4, &[bit]), kind, REQUIRED);
    vec![
        one("a listed big-endian uint16", value(), "01 00", [0, 256, 0]),
        one("a listed big-endian uint16 turned: kind 6", value(), "00 01", [6, 1, 0]),
        one("the highest bit of a big-endian uint32, listed", bit(31, UINT32), "80 00 00 00", [0, 1 << 31, 0]),
        one("bit 7 of a big-endian uint32, unlisted: kind 6", bit(31, UINT32), "00 00 00 80", [6, 128, 0]),
        one("the lowest bit of a big-endian uint64, listed", bit(0, UINT64), "00 00 00 00 00 00 00 01", [0, 1, 0]),
    ]
}
