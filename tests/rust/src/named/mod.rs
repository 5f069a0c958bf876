//! Cases with a name: those of the rules' own examples, and borders. Each is asked of the plain reader and writer, of
//! the library, and of the library with the book prepared once.

mod big_numbers;
mod big_writing;
mod books;
mod borders;
mod byte_orders;
mod calls;
mod counted;
mod dimensions;
mod every_text;
mod largest;
mod listed;
mod listed_writing;
mod lists;
mod longest;
mod messages;
mod named_lists;
mod prepared;
mod readings;
mod text_writing;
mod texts;
mod types;
mod unknown;
mod unsendable;
mod unwritten;
mod writing;

use crate::readers::{Free, Plain, Reader, Stream};
use crate::report::{hex, same, Report};
use crate::rooms::{self, Listing};
use crate::turned;
use plain::{Book, Draft, Place, Record, Refusal};

/// A book, a message (empty where it is not asked about) and the right answer.
pub struct Case {
    name: &'static str,
    book: Vec<u8>,
    message: Vec<u8>,
    expected: Expected,
}

#[derive(Clone)]
pub enum Expected {
    Book(Result<(), Refusal>),
    /// What is listed into a room of any size.
    Listing(Listing),
    Place(Place, Result<Record, Refusal>),
    /// What is written into so many octets of room, and the message.
    Written(Draft, usize, Result<Vec<u8>, Refusal>),
}

pub fn run(report: &mut Report) {
    let all = all();
    for case in &all {
        if case.run(report) {
            println!("ok {}", case.name);
        }
    }
    let many = [
        ("the nine types at their borders", types::cases()),
        ("texts of every length, read", every_text::read()),
        ("texts of every length, and with NUL at every position, written", every_text::written()),
    ];
    for (name, cases) in &many {
        let passed = cases.iter().filter(|case| case.run(report)).count();
        println!("{name}: {passed} of {}", cases.len());
    }
    let turned: Vec<Case> = all.iter().chain(many.iter().flat_map(|(_, cases)| cases)).map(Case::turned).collect();
    let passed = turned.iter().filter(|case| case.run(report)).count();
    println!("all of these by the other byte order, with every number turned: {passed} of {}", turned.len());
    let calls = calls::calls().into_iter().chain(texts::calls()).chain(counted::calls()).chain(prepared::calls());
    let calls = calls.chain(big_writing::calls()).chain(unknown::calls());
    let calls = calls.chain(largest::calls()).chain(longest::calls()).chain(unsendable::calls());
    for (name, call) in calls {
        if report.check(call(), || name.into()) {
            println!("ok {name}");
        }
    }
}

/// The cases whose names are told one by one.
fn all() -> Vec<Case> {
    let books = [books::cases(), borders::cases(), unsendable::cases()];
    let read = [messages::cases(), readings::cases(), counted::cases()];
    let written = [writing::cases(), unwritten::cases()];
    let by_lists = [lists::cases(), named_lists::cases(), listed::cases(), listed_writing::cases()];
    let of_texts = [texts::cases(), text_writing::cases()];
    let big_endian = [byte_orders::cases(), big_numbers::cases(), big_writing::cases()];
    let counted = [dimensions::cases(), unknown::cases()];
    let all =
        books.into_iter().chain(read).chain(written).chain(by_lists).chain(of_texts).chain(big_endian).chain(counted);
    all.flatten().collect()
}

/// In the octets of a room.
const ONES: u8 = 0xff;

impl Case {
    fn run(&self, report: &mut Report) -> bool {
        let outcome = self.ask(&Plain).and_then(|()| self.ask(&Free)).and_then(|()| self.ask(&Stream));
        report.check(outcome, || format!("{}, book {}, message {}", self.name, hex(&self.book), hex(&self.message)))
    }

    /// By the book for the other byte order: whatever is asked has the same answer.
    fn turned(&self) -> Case {
        let tree = Book::read(&self.book);
        let turned = |message: &[u8]| tree.as_ref().map_or(message.to_vec(), |tree| turned::message(tree, message));
        let mut expected = self.expected.clone();
        if let Expected::Written(_, _, Ok(message)) = &mut expected {
            *message = turned(message);
        }
        Case { name: self.name, book: turned::book(&self.book), message: turned(&self.message), expected }
    }

    fn ask(&self, reader: &dyn Reader) -> Result<(), String> {
        let (book, message, name) = (&self.book[..], &self.message[..], reader.name());
        match &self.expected {
            Expected::Book(verdict) => same(name, reader.check_book(book), *verdict),
            Expected::Place(place, answer) => same(name, reader.place(book, message, place), *answer),
            Expected::Written(draft, room, written) => self.write(reader, draft, *room, written),
            Expected::Listing(listing) => {
                let verdict = listing.as_ref().map(drop).map_err(|refused| *refused);
                same(name, reader.check(book, message), verdict)?;
                let list = |len| rooms::listed(listing, len, |room| reader.list(book, message, room));
                rooms::every(listing).try_for_each(list).map_err(|failure| format!("{name}, {failure}"))
            }
        }
    }

    fn write(
        &self,
        reader: &dyn Reader,
        draft: &Draft,
        room: usize,
        written: &Result<Vec<u8>, Refusal>,
    ) -> Result<(), String> {
        let (mut lent, mut left) = (vec![ONES; room], vec![ONES; room]);
        if let Ok(message) = written {
            left[..message.len()].copy_from_slice(message);
        }
        let length = written.as_ref().map(Vec::len).map_err(|refused| *refused);
        same(reader.name(), reader.write(&self.book, draft, &mut lent), length)?;
        same(reader.name(), hex(&lent), hex(&left))
    }
}

/// Octets from their hexadecimal digits, with spaces and bars between them.
pub fn octets(digits: &str) -> Vec<u8> {
    let pairs = digits.split([' ', '|']).filter(|pair| !pair.is_empty());
    pairs.map(|pair| u8::from_str_radix(pair, 16).expect("two digits")).collect()
}

/// The octets with the word at `at` replaced.
pub fn with_word(octets: &[u8], at: usize, word: u16) -> Vec<u8> {
    let mut octets = octets.to_vec();
    octets[at..at + 2].copy_from_slice(&word.to_le_bytes());
    octets
}
