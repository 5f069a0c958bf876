//! Big-endian messages, as they are written.

use super::books::{a, b, field, fields, nested, of, DATA};
use super::byte_orders::{big, big_m, big_of_b, big_rooted};
use super::calls::Call;
use super::messages::{m, of_b, MINUS_5};
use super::texts::{alone, array, text, OPTIONAL, REQUIRED};
use super::writing::{draft, draft_of_m, nine_types, of_b_listing, padded, to_depth_four};
use super::{octets, Case, Expected};
use crate::readers::{lent, Free, Plain, Reader, Stream};
use crate::report::same;
use crate::turned;
use plain::{Block, Book, Draft};

pub fn cases() -> Vec<Case> {
    [message_cases(), type_cases(), octets_cases()].into_iter().flatten().collect()
}

/// By the book for big-endian messages, in as much room as the message has.
fn written(name: &'static str, book: Vec<u8>, draft: Draft, message: Vec<u8>) -> Case {
    let expected = Expected::Written(draft, message.len(), Ok(message));
    Case { name, book: big(book), message: Vec::new(), expected }
}

fn message_cases() -> Vec<Case> {
    let no_entries = [[0, 1000, 0], [0, MINUS_5, 0], [4, 0, 0], [2, 30, 2]];
    let without = [&big_m()[..20], &octets("00 02 00 00 | 00 02 61 62")].concat();
    let (no_element, padding) = (of(Block::default()), big_rooted("00 07 00 00 00 80 00 00 00 00", 0, ""));
    vec![
        written("writing M under A for big-endian messages: M turned", a(), draft_of_m(), big_m()),
        written("writing a big-endian message under B", b(), draft(&of_b_listing(), &of_b()), big_of_b()),
        written("writing a big-endian group without entries", a(), draft(&no_entries, &m()), without),
        written("writing a big-endian root without elements", no_element, draft(&[], &[]), big_rooted("", 0, "")),
        written("writing big-endian zero padding", of(padded()), draft(&[[0, 7, 0], [1, 0, 0]], &[]), padding),
        written("writing big-endian groups to depth four", of(nested(4)), draft(&to_depth_four(), &[]), depth_four()),
    ]
}

fn depth_four() -> Vec<u8> {
    let root = "00 01 00 01 00 07 00 00 00 01 00 00 | 01";
    octets(
        &[root, "00 01 00 01 | 02", "00 01 00 02 | 03", "00 01 00 00 | 04", "00 01 00 01 | 05", "00 01 00 01 | 06"]
            .join("|"),
    )
}

fn type_cases() -> Vec<Case> {
    let numbers = |values: [i128; 9]| draft(&values.map(|value| [0, value as u64, 0]), &[]);
    let least = numbers([32, -127, 0, -32767, 0, 1 - (1 << 31), 0, 1 - (1 << 63), 0]);
    let greatest = numbers([126, 127, 254, 32767, 65534, (1 << 31) - 1, (1 << 32) - 2, (1 << 63) - 1, (1 << 64) - 2]);
    let of_nulls = "00 80 ff 80 00 ff ff 80 00 00 00 ff ff ff ff 80 00 00 00 00 00 00 00 ff ff ff ff ff ff ff ff";
    let of_least = "20 81 00 80 01 00 00 80 00 00 01 00 00 00 00 80 00 00 00 00 00 00 01 00 00 00 00 00 00 00 00";
    let of_greatest = "7e 7f fe 7f ff ff fe 7f ff ff ff ff ff ff fe 7f ff ff ff ff ff ff ff ff ff ff ff ff ff ff fe";
    let case = |name, draft, octets| written(name, nine_types(), draft, big_rooted(octets, 0, ""));
    vec![
        case("writing null of each type, big-endian", draft(&[[1, 0, 0]; 9], &[]), of_nulls),
        case("writing the least of each type, big-endian", least, of_least),
        case("writing the greatest of each type, big-endian", greatest, of_greatest),
    ]
}

/// What is no number is written as the pool has it.
fn octets_cases() -> Vec<Case> {
    let one =
        |name, field, record, octets| written(name, alone(field), draft(&[record], b"MSFT"), big_rooted(octets, 0, ""));
    let data = of(Block { data: vec![DATA, DATA], ..Block::default() });
    let two = draft(&[[2, 0, 4], [2, 1, 2]], b"MSFT");
    let of_two = big_rooted("", 2, "00 04 4d 53 46 54 00 02 53 46");
    vec![
        one("writing a text beside big-endian numbers", text(6, OPTIONAL), [2, 0, 4], "4d 53 46 54 00 00"),
        one("writing null for a text beside big-endian numbers", text(2, OPTIONAL), [1, 0, 0], "00 00"),
        one("writing a uint8 array beside big-endian numbers", array(4, REQUIRED), [2, 0, 4], "4d 53 46 54"),
        written("writing data of a big-endian length", data, two, of_two),
    ]
}

pub fn calls() -> [(&'static str, Call); 1] {
    [("by either byte order a listing is written to as many octets, which read back alike", written_alike)]
}

fn written_alike() -> Result<(), String> {
    let texts = of(fields(10, vec![text(6, REQUIRED), field(6, 6, OPTIONAL)]));
    let drafts = [
        (a(), draft_of_m()),
        (b(), draft(&of_b_listing(), &of_b())),
        (of(nested(4)), draft(&to_depth_four(), &[])),
        (nine_types(), draft(&[[0, 100, 0]; 9], &[])),
        (nine_types(), draft(&[[1, 0, 0]; 9], &[])),
        (texts, draft(&[[2, 0, 4], [0, 7, 0]], b"MEAL")),
        (of(Block::default()), draft(&[], &[])),
    ];
    let readers: [&dyn Reader; 3] = [&Plain, &Free, &Stream];
    for reader in readers {
        for (book, draft) in &drafts {
            let tree = Book::read(book).map_err(|refused| format!("{refused:?}"))?;
            let (little, listing) = write_and_list(reader, book, draft)?;
            let of_big = write_and_list(reader, &big(book.clone()), draft)?;
            same(reader.name(), of_big, (turned::message(&tree, &little), listing))?;
        }
    }
    Ok(())
}

/// The message, and what it is listed as.
fn write_and_list(reader: &dyn Reader, book: &[u8], draft: &Draft) -> Result<(Vec<u8>, Vec<u64>), String> {
    let (mut message, mut listing) = (lent(100), vec![0; draft.listing.len()]);
    let length = reader.write(book, draft, &mut message).map_err(|refused| format!("{refused:?}"))?;
    message.truncate(length);
    reader.list(book, &message, &mut listing).map_err(|refused| format!("{refused:?}"))?;
    Ok((message, listing))
}
