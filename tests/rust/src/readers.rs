//! The library and the plain reader and writer under one set of calls, so that every test asks all of them the same.

use crate::raw;
use plain::{refusal, writer, Book, Draft, Message, Place, Record, Refusal};
use siphonbard::{Element, Step};

pub trait Reader {
    fn name(&self) -> &'static str;

    fn check_book(&self, book: &[u8]) -> Result<(), Refusal>;
    fn check(&self, book: &[u8], message: &[u8]) -> Result<(), Refusal>;
    fn list(&self, book: &[u8], message: &[u8], room: &mut [u64]) -> Result<u64, Refusal>;
    fn place(&self, book: &[u8], message: &[u8], place: &Place) -> Result<Record, Refusal>;
    fn write(&self, book: &[u8], draft: &Draft, room: &mut [u8]) -> Result<usize, Refusal>;
}

const PATTERN: [u8; 7] = [0xa5, 0x5a, 0xc3, 0x3c, 0x96, 0x69, 0xf0];

/// Room for a message, full of a pattern.
pub fn lent(octets: usize) -> Vec<u8> {
    let mut room = PATTERN.repeat(octets / PATTERN.len() + 1);
    room.truncate(octets);
    room
}

/// The reader of `plain`.
pub struct Plain;

impl Reader for Plain {
    fn name(&self) -> &'static str {
        "plain"
    }

    fn check_book(&self, book: &[u8]) -> Result<(), Refusal> {
        Book::read(book).map(drop)
    }

    fn check(&self, book: &[u8], message: &[u8]) -> Result<(), Refusal> {
        Message::read(&Book::read(book)?, message).map(drop)
    }

    fn list(&self, book: &[u8], message: &[u8], room: &mut [u64]) -> Result<u64, Refusal> {
        let records = Message::read(&Book::read(book)?, message)?.list();
        let part = room.get_mut(..3 * records.len()).ok_or(refusal(40, records.len()))?;
        part.copy_from_slice(&records.concat());
        Ok(records.len() as u64)
    }

    fn place(&self, book: &[u8], message: &[u8], place: &Place) -> Result<Record, Refusal> {
        Message::read(&Book::read(book)?, message)?.place(place)
    }

    fn write(&self, book: &[u8], draft: &Draft, room: &mut [u8]) -> Result<usize, Refusal> {
        writer::write(&Book::read(book)?, draft, room)
    }
}

/// The library's calls that check and prepare the book each time.
pub struct Free;

impl Reader for Free {
    fn name(&self) -> &'static str {
        "library"
    }

    fn check_book(&self, book: &[u8]) -> Result<(), Refusal> {
        siphonbard::check_book(book).map_err(own)
    }

    fn check(&self, book: &[u8], message: &[u8]) -> Result<(), Refusal> {
        siphonbard::check(book, message).map_err(own)
    }

    fn list(&self, book: &[u8], message: &[u8], room: &mut [u64]) -> Result<u64, Refusal> {
        siphonbard::list(book, message, room).map(|count| count as u64).map_err(own)
    }

    fn place(&self, book: &[u8], message: &[u8], place: &Place) -> Result<Record, Refusal> {
        match element(place) {
            Some(element) => siphonbard::place(book, message, &steps(place), element),
            None => raw::place(book, message, &numbers(place), place.kind, place.element),
        }
        .map(|answer| answer.record())
        .map_err(own)
    }

    fn write(&self, book: &[u8], draft: &Draft, room: &mut [u8]) -> Result<usize, Refusal> {
        siphonbard::write(book, draft.template, &draft.listing, &draft.pool, room).map_err(own)
    }
}

/// The library's calls on a book that was prepared before.
pub struct Stream;

impl Reader for Stream {
    fn name(&self) -> &'static str {
        "library, book prepared once"
    }

    fn check_book(&self, book: &[u8]) -> Result<(), Refusal> {
        siphonbard::Book::checked(book).map(drop).map_err(own)
    }

    fn check(&self, book: &[u8], message: &[u8]) -> Result<(), Refusal> {
        siphonbard::Book::checked(book).and_then(|book| book.check(message)).map_err(own)
    }

    fn list(&self, book: &[u8], message: &[u8], room: &mut [u64]) -> Result<u64, Refusal> {
        let counted = siphonbard::Book::checked(book).and_then(|book| book.list(message, room));
        counted.map(|count| count as u64).map_err(own)
    }

    fn place(&self, book: &[u8], message: &[u8], place: &Place) -> Result<Record, Refusal> {
        let book = siphonbard::Book::checked(book).map_err(own)?;
        stream_place(&book, message, place)
    }

    fn write(&self, book: &[u8], draft: &Draft, room: &mut [u8]) -> Result<usize, Refusal> {
        let book = siphonbard::Book::checked(book).map_err(own)?;
        stream_write(&book, draft, room)
    }
}

pub fn stream_place(book: &siphonbard::Book, message: &[u8], place: &Place) -> Result<Record, Refusal> {
    match element(place) {
        Some(element) => book.place(message, &steps(place), element),
        None => raw::stream_place(book, message, &numbers(place), place.kind, place.element),
    }
    .map(|answer| answer.record())
    .map_err(own)
}

pub fn stream_write(book: &siphonbard::Book, draft: &Draft, room: &mut [u8]) -> Result<usize, Refusal> {
    book.write(draft.template, &draft.listing, &draft.pool, room).map_err(own)
}

pub fn own(refused: siphonbard::Refusal) -> Refusal {
    refusal(refused.number.into(), refused.place)
}

/// Nothing where the kind is none that the crate can say; then it is asked by its number.
fn element(place: &Place) -> Option<Element> {
    let number = place.element as usize;
    match place.kind {
        0 => Some(Element::Field(number)),
        1 => Some(Element::Group(number)),
        2 => Some(Element::Data(number)),
        _ => None,
    }
}

fn steps(place: &Place) -> Vec<Step> {
    place.steps.iter().map(|&(group, entry)| Step { group, entry }).collect()
}

fn numbers(place: &Place) -> Vec<u64> {
    place.steps.iter().flat_map(|&(group, entry)| [group, entry]).collect()
}
