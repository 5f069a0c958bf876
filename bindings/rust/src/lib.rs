//! Reads and writes FIX SBE 1.0 messages by a schema book. The functions underneath are proved in Rattle: any octets
//! are taken as they come, and every answer and every message is the one that the layout has.
//!
//! An element is present by the message's version and by nothing else. A field that is younger than the message is
//! [`Answer::Absent`], also where the message's block has zeros for it. A code that the book does not list is
//! [`Answer::Unlisted`]. Whether messages are little-endian or big-endian, and how many numbers a group's dimension
//! has, is said by the book, and by nothing else: the calls are the same.
//!
//! ```
//! use siphonbard::{Answer, Book, Element, Step};
//!
//! // One template: a uint32, an optional int16, a group with a uint8, and a data.
//! let words: [u16; 43] = [
//!     7, 0, 1, 43, 0, 0, 2, 1, 10, 33, 8, 2, 1, 1, 38, 6, 1, 0, 0, 0, 0, 44, 3, 1, 4, 1, 0, 0, 58, 0, 453, 0, 2, 1,
//!     0, 0, 452, 2, 1, 0, 0, 0, 0,
//! ];
//! let octets: Vec<u8> = words.iter().flat_map(|word| word.to_le_bytes()).collect();
//! let book = Book::checked(&octets)?;
//!
//! let message = b"\x08\0\x01\0\x07\0\0\0\x01\0\x01\0\xe8\x03\0\0\xfb\xff\0\0\x02\0\x02\0\x01\0\x03\0\x02\0ab";
//! assert_eq!(book.place(message, &[], Element::Field(0))?, Answer::Number(1000));
//! assert_eq!(book.place(message, &[], Element::Field(1))?.signed(), Some(-5));
//! let second = [Step { group: 0, entry: 1 }];
//! assert_eq!(book.place(message, &second, Element::Field(0))?.unsigned(), Some(3));
//! assert_eq!(book.place(message, &[], Element::Data(0))?.octets(message), Some(&b"ab"[..]));
//! assert_eq!(book.list_all(message)?.len(), 6);
//!
//! // The sixth word is the byte order of the messages: 1 for big-endian.
//! let mut big_endian = octets.clone();
//! big_endian[10] = 1;
//! let big_endian = Book::checked(&big_endian)?;
//! let turned = b"\0\x08\0\x01\0\x07\0\0\0\x01\0\x01\0\0\x03\xe8\xff\xfb\0\0\0\x02\0\x02\x01\0\x03\0\0\x02ab";
//! assert_eq!(big_endian.list_all(turned)?, book.list_all(message)?);
//!
//! // The seventh word is how many numbers a group's dimension has: with 4, those of groups and data are among them.
//! let mut counted = octets.clone();
//! counted[12] = 4;
//! let counted = Book::checked(&counted)?;
//! let with_counts = [&message[..24], &[0, 0, 0, 0], &message[24..]].concat();
//! assert_eq!(counted.list_all(&with_counts)?[..5], book.list_all(message)?[..5]);
//! # Ok::<(), siphonbard::Refusal>(())
//! ```
//!
//! A message is written from a listing; [`Listing`] makes one, and has an example.
//!
//! The functions below check the book at each call. Those that read or write a message prepare it, too, in 66 kB of the
//! stack ([`list_all`] and [`write_all`]: of the heap). A [`Book`] is checked and prepared once.
//! [`ffi`] has the exports themselves, for what these cannot say.

#![deny(missing_docs)]
#![deny(unsafe_code)]

mod answer;
mod book;
#[allow(unsafe_code)]
pub mod ffi;
mod listing;
mod refusal;

pub use answer::{answers, Answer, Element, Step};
pub use book::Book;
pub use listing::Listing;
pub use refusal::Refusal;

/// Whether the octets are a schema book; else 1 to 7.
pub fn check_book(book: &[u8]) -> Result<(), Refusal> {
    ffi::check_book(book)
}

/// Whether the message is one of the book's; else 1 to 22.
pub fn check(book: &[u8], message: &[u8]) -> Result<(), Refusal> {
    ffi::check(book, message)
}

/// Lists the message into the room, three numbers a record ([`answers`] reads them), and gives how many records
/// there are; or 1 to 40. The room past the last record is left as it was; after a refusal all of it is.
///
/// The place of [`Refusal::ROOM_TOO_SMALL`] is the number of records, whatever the room: lend three numbers for each of
/// them, and list again. To ask for that number alone, list into an empty room. One walk checks and counts, so this
/// pays for the checking walk alone; a message without records is accepted there, with 0.
///
/// ```
/// use siphonbard::{list, Refusal};
///
/// # let words: [u16; 43] = [
/// #     7, 0, 1, 43, 0, 0, 2, 1, 10, 33, 8, 2, 1, 1, 38, 6, 1, 0, 0, 0, 0, 44, 3, 1, 4, 1, 0, 0, 58, 0, 453, 0, 2, 1,
/// #     0, 0, 452, 2, 1, 0, 0, 0, 0,
/// # ];
/// # let book: Vec<u8> = words.iter().flat_map(|word| word.to_le_bytes()).collect();
/// # let message = b"\x08\0\x01\0\x07\0\0\0\x01\0\x01\0\xe8\x03\0\0\xfb\xff\0\0\x02\0\x02\0\x01\0\x03\0\x02\0ab";
/// // The book and the message of the crate's page.
/// let refusal = list(&book, message, &mut []).unwrap_err();
/// assert_eq!(refusal, Refusal { number: Refusal::ROOM_TOO_SMALL, place: 6 });
///
/// let mut room = vec![0; 3 * refusal.place];
/// assert_eq!(list(&book, message, &mut room)?, 6);
/// # Ok::<(), siphonbard::Refusal>(())
/// ```
pub fn list(book: &[u8], message: &[u8], room: &mut [u64]) -> Result<usize, Refusal> {
    ffi::list(book, message, room)
}

/// All answers of the message, in the order of its listing, or 1 to 22. See [`Book::list_all`].
pub fn list_all(book: &[u8], message: &[u8]) -> Result<Vec<Answer>, Refusal> {
    Book::checked(book)?.list_all(message)
}

/// What stands at one place of the message, or 1 to 31: the steps lead down to a block, `element` is one of that
/// block's.
pub fn place(book: &[u8], message: &[u8], steps: &[Step], element: Element) -> Result<Answer, Refusal> {
    ffi::place(book, message, steps, element)
}

/// Writes a message of the template from the listing, at the room's start, and gives how many octets it has; or 1 to 7
/// or 50 to 55. The room past the message is left as it was; after a refusal all of it is.
///
/// The listing is as [`list`] gives it, three numbers a record, a record for every element of the book's template.
/// Starts refer to the pool: a listing of a message is written back with that message as the pool. The message has
/// the book's version, byte order and declared block lengths, and zero padding; a text that is shorter than its field
/// is filled with NUL.
pub fn write(book: &[u8], template_id: u16, listing: &[u64], pool: &[u8], room: &mut [u8]) -> Result<usize, Refusal> {
    ffi::write(book, template_id, listing, pool, room)
}

/// A message of the template from the listing, or 1 to 7 or 50 to 55.
pub fn write_all(book: &[u8], template_id: u16, listing: &[u64], pool: &[u8]) -> Result<Vec<u8>, Refusal> {
    Book::checked(book)?.write_all(template_id, listing, pool)
}
