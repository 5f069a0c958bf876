//! One book for little-endian messages and for big-endian ones, on the library's own answers: a message and the same
//! with every number turned are answered alike, and a listing is written to two such messages.

use super::compare::BothBooks;
use super::places;
use crate::readers::{lent, own, stream_place, stream_write, Free, Reader};
use crate::report::same;
use crate::turned;
use plain::{Book, Draft, Message, Place, Record, Refusal, Rng, LONGEST};
use std::fmt;

/// A book by either byte order, accepted.
pub struct Orders<'a> {
    tree: &'a Book,
    one: Side<'a>,
    other: Side<'a>,
}

struct Side<'a> {
    octets: &'a [u8],
    prepared: &'a siphonbard::Book,
}

/// How many messages were accepted by either order and how many refused, and how many listings were written and how
/// many not.
#[derive(Default)]
pub struct Alike {
    accepted: u64,
    refused: u64,
    written: u64,
    unwritten: u64,
}

impl Alike {
    pub fn all_came(&self) -> bool {
        [self.accepted, self.refused, self.written, self.unwritten].iter().all(|&count| count > 0)
    }
}

impl fmt::Display for Alike {
    fn fmt(&self, out: &mut fmt::Formatter) -> fmt::Result {
        let Alike { accepted, refused, written, unwritten } = self;
        write!(out, "{accepted} messages accepted, {refused} refused, {written} listings written, {unwritten} refused")
    }
}

/// Places that are asked for in a message.
const PLACES: usize = 4;

impl<'a> Orders<'a> {
    pub fn of(one: &'a BothBooks<'a>, other: &'a BothBooks<'a>) -> Option<Orders<'a>> {
        let side = |both: &'a BothBooks<'a>| Some(Side { octets: both.octets, prepared: both.library.as_ref().ok()? });
        Some(Orders { tree: one.plain.as_ref().ok()?, one: side(one)?, other: side(other)? })
    }

    /// The message by the one, and turned by the other: every call answers alike, starts and places of refusals too.
    pub fn read_alike(&self, rng: &mut Rng, octets: &[u8], alike: &mut Alike) -> Result<(), String> {
        let places: Vec<Place> = match Message::read(self.tree, octets) {
            Ok(message) => (0..PLACES).map(|_| places::near(rng, &message)).collect(),
            Err(_) => vec![places::any(rng)],
        };
        let answers = self.one.read(octets, &places);
        let count = if answers.check.is_ok() { &mut alike.accepted } else { &mut alike.refused };
        *count += 1;
        same("turned", self.other.read(&turned::message(self.tree, octets), &places), answers)
    }

    /// The listing by both: the messages are each other turned and are listed alike, or both are refused alike.
    pub fn written_alike(&self, draft: &Draft, alike: &mut Alike) -> Result<(), String> {
        let (one, other) = (self.one.write(draft)?, self.other.write(draft)?);
        let count = if one.is_ok() { &mut alike.written } else { &mut alike.unwritten };
        *count += 1;
        let turned = one.as_ref().map(|message| turned::message(self.tree, message)).map_err(|refused| *refused);
        same("written by the other order", &other, &turned)?;
        match (one, other) {
            (Ok(one), Ok(other)) => same("read back", self.other.read(&other, &[]), self.one.read(&one, &[])),
            _ => Ok(()),
        }
    }
}

/// What is answered of a message, by the book's octets and by its prepared numbers.
#[derive(Debug, PartialEq)]
struct Answers {
    check: Result<(), Refusal>,
    list: Result<Vec<Record>, Refusal>,
    places: Vec<Result<Record, Refusal>>,
    prepared_check: Result<(), Refusal>,
    prepared_list: Result<Vec<Record>, Refusal>,
    prepared_places: Vec<Result<Record, Refusal>>,
}

impl Side<'_> {
    fn read(&self, message: &[u8], places: &[Place]) -> Answers {
        let records = |all: Vec<siphonbard::Answer>| all.iter().map(siphonbard::Answer::record).collect();
        Answers {
            check: Free.check(self.octets, message),
            list: siphonbard::list_all(self.octets, message).map(records).map_err(own),
            places: places.iter().map(|place| Free.place(self.octets, message, place)).collect(),
            prepared_check: self.prepared.check(message).map_err(own),
            prepared_list: self.prepared.list_all(message).map(records).map_err(own),
            prepared_places: places.iter().map(|place| stream_place(self.prepared, message, place)).collect(),
        }
    }

    /// The message that is written by either way of calling, or the refusal.
    fn write(&self, draft: &Draft) -> Result<Result<Vec<u8>, Refusal>, String> {
        let (mut free, mut stream) = (lent(LONGEST), lent(LONGEST));
        let written = Free.write(self.octets, draft, &mut free);
        same("Book::write", stream_write(self.prepared, draft, &mut stream), written)?;
        same("rooms", free == stream, true)?;
        Ok(written.map(|length| free[..length].to_vec()))
    }
}
