//! One book or one message, asked of the library and of the plain reader: answers and rooms must be equal.

use super::seen::Seen;
use super::{places, texts, written};
use crate::readers::{own, stream_place, Free, Reader};
use crate::report::same;
use crate::rooms::{self, prepared, Listing};
use plain::{word, Book, Message, Place, Refusal, Rng, LONGEST};
use siphonbard::ffi::PREPARED_MOST;
use siphonbard::Answer;

/// A book as both sides have it.
pub struct BothBooks<'a> {
    pub octets: &'a [u8],
    pub plain: Result<Book, Refusal>,
    pub library: Result<siphonbard::Book, Refusal>,
}

impl<'a> BothBooks<'a> {
    pub fn read(octets: &'a [u8]) -> BothBooks<'a> {
        let library = siphonbard::Book::checked(octets).map_err(own);
        BothBooks { octets, plain: Book::read(octets), library }
    }

    /// By 4, whose place is past the templates.
    fn is_refused_for_a_list(&self) -> bool {
        let four = |refused: &Refusal| refused.number == 4 && refused.place >= word(self.octets, 4).into();
        self.library.as_ref().err().map_or(false, four)
    }

    fn can_only_just_be_sent(&self) -> bool {
        let longest = |book: &Book| book.templates.iter().any(|template| book.shortest(&template.block) == LONGEST);
        self.plain.as_ref().map_or(false, longest)
    }

    /// The verdict on the book, and its numbers in rooms that are exact, too small by one number, half so large, empty,
    /// and larger.
    pub fn compare(&self, seen: &mut Seen) -> Result<(), String> {
        seen.outcome(&self.library);
        seen.lists += u64::from(self.is_refused_for_a_list());
        seen.longest += u64::from(self.can_only_just_be_sent());
        let verdict = self.plain.as_ref().map(drop).map_err(|no| *no);
        same("check_book", Free.check_book(self.octets), verdict)?;
        same("Book::checked", self.library.as_ref().map(drop).map_err(|no| *no), verdict)?;
        let numbers = self.library.as_ref().map(siphonbard::Book::numbers).map_err(|no| *no);
        let exact = numbers.map_or(6, <[u64]>::len);
        same("most numbers", exact <= PREPARED_MOST, true)?;
        let rooms = [exact, exact - 1, exact / 2, 0, exact + 3];
        rooms.iter().try_for_each(|&room| prepared(self.octets, numbers, room))
    }
}

/// Of so many in 100 messages that are accepted every room is tried, where the largest has not over so many numbers.
const EVERY: usize = 20;
const SHORT: usize = 1000;

/// Everything that can be asked of one message.
pub fn message(rng: &mut Rng, seen: &mut Seen, book: &BothBooks, octets: &[u8]) -> Result<(), String> {
    let plain = match &book.plain {
        Ok(plain) => Message::read(plain, octets),
        Err(refused) => Err(*refused),
    };
    if let Some(book) = book.plain.as_ref().ok().filter(|book| book.is_counted()) {
        seen.counted(book, octets, plain.as_ref().map(drop).map_err(|refused| *refused));
    }
    let asked = Asked { book, octets, plain };
    asked.checks(seen)?;
    asked.lists(rng, seen)?;
    asked.places(rng, seen)?;
    match &asked.plain {
        Ok(message) => {
            seen.accepted_by(message.book);
            texts::read(message).for_each(|text| seen.text(text));
            written::back(rng, seen, book, message)
        }
        Err(_) => Ok(()),
    }
}

struct Asked<'a> {
    book: &'a BothBooks<'a>,
    octets: &'a [u8],
    plain: Result<Message<'a>, Refusal>,
}

impl Asked<'_> {
    /// What the plain reader says, of whatever is asked.
    fn expected<T>(&self, ask: impl FnOnce(&Message) -> T) -> Result<T, Refusal> {
        self.plain.as_ref().map(ask).map_err(|refused| *refused)
    }

    fn checks(&self, seen: &mut Seen) -> Result<(), String> {
        let (expected, came) = (self.expected(|_| ()), Free.check(self.book.octets, self.octets));
        seen.outcome(&came);
        same("check", came, expected)?;
        match &self.book.library {
            Ok(book) => same("Book::check", book.check(self.octets).map_err(own), expected),
            Err(_) => Ok(()),
        }
    }

    /// Into rooms that are exact, too small by one number, empty, and larger; of some messages into every room.
    fn lists(&self, rng: &mut Rng, seen: &mut Seen) -> Result<(), String> {
        let listing = self.expected(|message| message.list());
        let exact = listing.as_ref().map_or(6, |records| 3 * records.len());
        if rng.chance(EVERY) && listing.is_ok() && exact <= SHORT {
            seen.every_room += 1;
            rooms::every(&listing).try_for_each(|room| self.list_into(room, &listing, seen))?;
        }
        for room in [exact, exact.saturating_sub(1), 0, exact + rng.between(1, 4)] {
            self.list_into(room, &listing, seen)?;
        }
        for record in listing.iter().flatten() {
            seen.kind(record[0]);
        }
        self.lists_all(listing)
    }

    fn list_into(&self, room: usize, listing: &Listing, seen: &mut Seen) -> Result<(), String> {
        rooms::listed(listing, room, |room| {
            let came = Free.list(self.book.octets, self.octets, room);
            self.count(seen, &came);
            came
        })?;
        match &self.book.library {
            Ok(book) => {
                let list = |room: &mut [u64]| book.list(self.octets, room).map(|count| count as u64).map_err(own);
                rooms::listed(listing, room, list).map_err(|failure| format!("Book, {failure}"))
            }
            Err(_) => Ok(()),
        }
    }

    fn lists_all(&self, listing: Listing) -> Result<(), String> {
        let records = |all: Vec<Answer>| all.iter().map(Answer::record).collect();
        let all = siphonbard::list_all(self.book.octets, self.octets).map(records).map_err(own);
        same("list_all", &all, &listing)?;
        match &self.book.library {
            Ok(book) => same("Book::list_all", book.list_all(self.octets).map(records).map_err(own), listing),
            Err(_) => Ok(()),
        }
    }

    fn places(&self, rng: &mut Rng, seen: &mut Seen) -> Result<(), String> {
        let places = match &self.plain {
            Ok(message) => (0..3).map(|_| places::near(rng, message)).collect(),
            Err(_) => vec![places::any(rng)],
        };
        for place in &places {
            self.place(place, seen).map_err(|failure| format!("{place:?}, {failure}"))?;
        }
        Ok(())
    }

    fn place(&self, place: &Place, seen: &mut Seen) -> Result<(), String> {
        let expected = self.expected(|message| message.place(place)).and_then(|answer| answer);
        let came = Free.place(self.book.octets, self.octets, place);
        self.count(seen, &came);
        same("place", came, expected)?;
        match &self.book.library {
            Ok(book) => same("Book::place", stream_place(book, self.octets, place), expected),
            Err(_) => Ok(()),
        }
    }

    /// Counts what is refused of an accepted message; a refused one is counted by its check.
    fn count<T>(&self, seen: &mut Seen, came: &Result<T, Refusal>) {
        if self.plain.is_ok() {
            seen.outcome(came);
        }
    }
}
