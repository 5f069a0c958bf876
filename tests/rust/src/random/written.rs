//! One listing, written by the library and by the plain writer: answers and rooms must be equal. And both round trips.

use super::compare::BothBooks;
use super::seen::Seen;
use super::texts::{self, Text};
use crate::readers::{lent, own, stream_write, Free, Reader};
use crate::report::same;
use plain::{refusal, writer, Draft, Message, Record, Refusal, Rng, LONGEST};
use siphonbard::Listing;

/// One in so many is written by the calls that make the room themselves, too.
const MADE_ROOM: u64 = 8;
/// Of the messages that cannot be written back, so many in a hundred are not tried.
const LEFT_OUT: usize = 75;

/// Everything that can be asked of one listing: rooms that are exact, too small by one octet or more, and larger.
pub fn draft(rng: &mut Rng, seen: &mut Seen, book: &BothBooks, draft: &Draft) -> Result<(), String> {
    let asked = Asked::of(book, draft);
    let exact = match &asked.plain {
        Ok(message) => message.len(),
        Err(refused) if refused.number == 55 => LONGEST,
        Err(_) => rng.below(100),
    };
    let (smaller, larger) = (rng.below(exact + 1), exact + rng.between(1, 40));
    for room in [Some(exact), exact.checked_sub(1), Some(smaller), Some(larger)].into_iter().flatten() {
        asked.write_into(room, seen)?;
    }
    if rng.draw() % MADE_ROOM == 0 {
        asked.makes_room()?;
    }
    match (&asked.plain, &book.library) {
        (Ok(message), Ok(library)) => {
            seen.trips.read_back += 1;
            book.plain.iter().for_each(|plain| seen.written_by(plain));
            reads_back(library, draft, message)
        }
        (Err(refused), Ok(_)) => {
            asked.refused_text(refused).into_iter().for_each(|text| seen.text(text));
            Ok(())
        }
        _ => Ok(()),
    }
}

struct Asked<'a> {
    book: &'a BothBooks<'a>,
    draft: &'a Draft,
    /// What the plain writer says where there is room enough.
    plain: Result<Vec<u8>, Refusal>,
}

impl<'a> Asked<'a> {
    fn of(book: &'a BothBooks<'a>, draft: &'a Draft) -> Asked<'a> {
        let plain = book.plain.as_ref().map_err(|refused| *refused).and_then(|plain| writer::message(plain, draft));
        Asked { book, draft, plain }
    }

    fn refused_text(&self, refused: &Refusal) -> Option<Text> {
        let template = self.book.plain.as_ref().ok()?.template(self.draft.template)?;
        texts::refused(&template.block, self.draft, refused)
    }

    fn write_into(&self, room: usize, seen: &mut Seen) -> Result<(), String> {
        let mut left = lent(room);
        let expected = match &self.plain {
            Ok(message) if message.len() > room => Err(refusal(55, 0)),
            Ok(message) => {
                left[..message.len()].copy_from_slice(message);
                Ok(message.len())
            }
            Err(refused) => Err(*refused),
        };
        let mut free = lent(room);
        let came = Free.write(self.book.octets, self.draft, &mut free);
        same("write", (came, &free), (expected, &left))?;
        match &self.book.library {
            Ok(book) => {
                seen.outcome(&came);
                let mut stream = lent(room);
                same("Book::write", (stream_write(book, self.draft, &mut stream), &stream), (expected, &left))
            }
            Err(_) => Ok(()),
        }
    }

    fn makes_room(&self) -> Result<(), String> {
        let Draft { template, listing, pool } = self.draft;
        let came = siphonbard::write_all(self.book.octets, *template, listing, pool).map_err(own);
        same("write_all", &came, &self.plain)?;
        match &self.book.library {
            Ok(book) => same("Book::write_all", book.write_all(*template, listing, pool).map_err(own), came),
            Err(_) => Ok(()),
        }
    }
}

/// "What is written reads back with the same values."
fn reads_back(book: &siphonbard::Book, draft: &Draft, message: &[u8]) -> Result<(), String> {
    let answers = book.list_all(message).map_err(|refused| format!("written, and not read: {refused}"))?;
    let records = answers.iter().map(|answer| answer.record());
    let listed = draft.listing.chunks(3).map(|record| [record[0], record[1], record[2]]);
    same("read back", contents(records, message), contents(listed, &draft.pool))
}

/// Records with octets in the place of their start.
fn contents(records: impl Iterator<Item = Record>, pool: &[u8]) -> Vec<(u64, u64, &[u8])> {
    let content = |[first, second, third]: Record| match first {
        2 => (first, third, &pool[second as usize..(second + third) as usize]),
        _ => (first, second, &[][..]),
    };
    records.map(content).collect()
}

/// "What is read writes back to the same octets" if it is as the book's writer has it, and else it does not.
pub fn back(rng: &mut Rng, seen: &mut Seen, book: &BothBooks, message: &Message) -> Result<(), String> {
    let as_written = book.plain.as_ref().map_or(false, |plain| message.is_as_written(plain));
    if !as_written && rng.chance(LEFT_OUT) {
        return Ok(());
    }
    let octets = message.octets;
    let draft = Draft { template: message.template, listing: message.list().concat(), pool: octets.to_vec() };
    let asked = Asked::of(book, &draft);
    asked.write_into(octets.len(), seen)?;
    same("as written", asked.plain.as_deref() == Ok(octets), as_written)?;
    if as_written {
        not_by_tail(rng, seen, book, message)?;
    }
    let trip = if as_written { &mut seen.trips.written_back } else { &mut seen.trips.not_so };
    *trip += 1;
    match &book.library {
        Ok(book) if *trip % MADE_ROOM == 0 => {
            let mut copied = Listing::new();
            for answer in book.list_all(octets).into_iter().flatten() {
                copied.record(answer, octets);
            }
            same("Book::write_listing", book.write_listing(draft.template, &copied).map_err(own), asked.plain)
        }
        _ => Ok(()),
    }
}

/// A message that is as the book's writer has it, and one octet after a text's first NUL altered: it is read as before,
/// and written back to the octets of before.
fn not_by_tail(rng: &mut Rng, seen: &mut Seen, book: &BothBooks, message: &Message) -> Result<(), String> {
    let (tails, mut octets) = (texts::tails(message), message.octets.to_vec());
    if tails.is_empty() {
        return Ok(());
    }
    octets[rng.pick(&tails)] = rng.word(1, 255) as u8;
    let listing = message.list().concat();
    if let Ok(book) = &book.library {
        let mut room = vec![0; listing.len()];
        let listed = book.list(&octets, &mut room).map_err(own);
        same("Book::list, a tail altered", (listed, &room), (Ok(listing.len() / 3), &listing))?;
    }
    let draft = Draft { template: message.template, listing, pool: octets };
    let asked = Asked::of(book, &draft);
    asked.write_into(message.octets.len(), seen)?;
    seen.trips.not_by_tail += 1;
    same("written back, a tail altered", asked.plain.as_deref(), Ok(message.octets))
}
