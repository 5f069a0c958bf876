//! Messages by how many records they have: rooms that are null, and `list_all`, which has room for 64 records at first.

use super::books::{nested, of};
use super::calls::Call;
use super::longest::{group, of_groups};
use super::messages::rooted;
use super::writing::{depth_four, to_depth_four};
use super::{Case, Expected};
use crate::raw;
use crate::report::same;
use plain::{Block, Record};
use siphonbard::ffi::Counted;
use siphonbard::{Answer, Book, Refusal};

struct Counts {
    book: Vec<u8>,
    message: Vec<u8>,
    listing: Vec<Record>,
}

/// A group and its entries, so many records together. Where there are to be none, a root without elements.
fn of_records(count: u16) -> Counts {
    let entries = match count.checked_sub(1) {
        Some(entries) => entries,
        None => return Counts { book: of(Block::default()), message: rooted("", 0, ""), listing: Vec::new() },
    };
    let words = [0, 1, 7, 0, 1, 0, 1, entries];
    let octets = (0..entries).map(|entry| (entry % 251) as u8);
    let message = words.iter().flat_map(|word| word.to_le_bytes()).chain(octets).collect();
    Counts { book: of_groups(1, 1), message, listing: group(entries.into()).collect() }
}

pub fn cases() -> Vec<Case> {
    let case = |name, Counts { book, message, listing }| Case {
        name,
        book,
        message,
        expected: Expected::Listing(Ok(listing)),
    };
    let deep = Counts { book: of(nested(4)), message: depth_four(), listing: to_depth_four() };
    vec![
        case("a group without entries: one record", of_records(1)),
        case("a group of 62 entries: 63 records", of_records(63)),
        case("a group of 63 entries: 64 records", of_records(64)),
        case("a group of 64 entries: 65 records", of_records(65)),
        case("groups in groups to depth four: 11 records", deep),
    ]
}

pub fn calls() -> [(&'static str, Call); 2] {
    [
        ("C: a null room: 40 at the number of records, and 0 of a message without records", null_room),
        ("crate: list_all of 0 to 200 records, and of messages that are refused", list_all),
    ]
}

fn null_room() -> Result<(), String> {
    for count in [0, 1, 64, 65, 2001] {
        let Counts { book, message, .. } = of_records(count);
        let number = if count == 0 { 0 } else { 40 };
        same("list", raw::list_nowhere(&book, &message), [Counted { number, place: count.into(), count: 0 }; 2])?;
        let short = raw::list_nowhere(&book, &message[..11]);
        same("list, of a message that is refused", short, [Counted { number: 10, place: 0, count: 0 }; 2])?;
    }
    Ok(())
}

fn list_all() -> Result<(), String> {
    for count in 0..=200 {
        let Counts { book, message, listing } = of_records(count);
        let both = |message: &[u8]| {
            let records = |all: Vec<Answer>| all.iter().map(Answer::record).collect::<Vec<Record>>();
            let checked = Book::checked(&book).and_then(|book| book.list_all(message));
            [siphonbard::list_all(&book, message).map(records), checked.map(records)]
        };
        same("list_all", both(&message), [Ok(listing.clone()), Ok(listing)])?;
        let past = Refusal { number: 20, place: message.len() };
        same("an octet more", both(&[&message[..], &[0]].concat()), [Err(past), Err(past)])?;
    }
    Ok(())
}
