//! What the safe crate cannot say: an unknown kind, an odd number of numbers for the steps, a template id over 65535, a
//! null pointer, a room for a prepared book.

use plain::Draft;
use siphonbard::ffi::{self, Checked, Counted, Found};
use siphonbard::{Answer, Book, Refusal};
use std::ptr;

type Octets = *const u8;

// The calls, by what their book is made of: octets, or a prepared book's numbers.
pub type Check<B> = unsafe extern "C" fn(*const B, usize, Octets, usize) -> Checked;
pub type List<B> = unsafe extern "C" fn(*const B, usize, Octets, usize, *mut u64, usize) -> Counted;
pub type Place<B> = unsafe extern "C" fn(*const B, usize, Octets, usize, *const u64, usize, u64, u64) -> Found;
pub type Write<B> =
    unsafe extern "C" fn(*const B, usize, u64, *const u64, usize, Octets, usize, *mut u8, usize) -> Counted;

/// For the calls for streams.
fn prepared(book: &[u8]) -> Book {
    Book::checked(book).expect("a book that is accepted")
}

pub fn place(book: &[u8], message: &[u8], steps: &[u64], kind: u64, element: u64) -> Result<Answer, Refusal> {
    asked(ffi::siphonbard_place, book, message, steps, kind, element)
}

pub fn stream_place(book: &Book, message: &[u8], steps: &[u64], kind: u64, element: u64) -> Result<Answer, Refusal> {
    asked(ffi::siphonbard_stream_place, book.numbers(), message, steps, kind, element)
}

/// A refused place has zeros for its record, and an accepted one for its refusal: the header says so.
fn asked<B>(
    place: Place<B>,
    book: &[B],
    message: &[u8],
    steps: &[u64],
    kind: u64,
    element: u64,
) -> Result<Answer, Refusal> {
    let (octets, len) = (message.as_ptr(), message.len());
    // SAFETY: lends three slices; the stream's call gets the numbers of a `Book`.
    let found = unsafe { place(book.as_ptr(), book.len(), octets, len, steps.as_ptr(), steps.len(), kind, element) };
    let record = [found.first, found.second, found.third];
    if found.number == 0 {
        assert_eq!(found.place, 0);
        return Ok(Answer::from_record(record).expect("a kind of 0 to 6"));
    }
    assert_eq!(record, [0; 3]);
    Err(Refusal { number: found.number as u8, place: found.place as usize })
}

/// Prepares the book into the room.
pub fn prepare(book: &[u8], room: &mut [u64]) -> Counted {
    // SAFETY: lends two slices, and the room is borrowed mutably.
    unsafe { ffi::siphonbard_prepare(book.as_ptr(), book.len(), room.as_mut_ptr(), room.len()) }
}

/// A refused call has 0 for its count, and an accepted one for its refusal: the header says so.
pub fn counted(reply: Counted) -> Result<u64, plain::Refusal> {
    if reply.number == 0 {
        assert_eq!(reply.place, 0);
        return Ok(reply.count);
    }
    assert_eq!(reply.count, 0);
    Err(plain::refusal(reply.number, reply.place as usize))
}

/// Prepares the book into a room that is a null pointer and length 0.
pub fn prepare_nowhere(book: &[u8]) -> Counted {
    // SAFETY: lends one slice; a null pointer with length 0 is an empty buffer.
    unsafe { ffi::siphonbard_prepare(book.as_ptr(), book.len(), ptr::null_mut(), 0) }
}

/// The verdict on a book that is a null pointer and length 0.
pub fn check_null_book() -> Checked {
    // SAFETY: a null pointer with length 0 is an empty buffer.
    unsafe { ffi::siphonbard_check_book(ptr::null(), 0) }
}

/// Prepares a book that is a null pointer and length 0.
pub fn prepare_null_book(room: &mut [u64]) -> Counted {
    // SAFETY: lends one slice, which is borrowed mutably; a null pointer with length 0 is an empty buffer.
    unsafe { ffi::siphonbard_prepare(ptr::null(), 0, room.as_mut_ptr(), room.len()) }
}

/// The verdict on a message that is a null pointer and length 0.
pub fn check_null_message(book: &[u8]) -> Checked {
    // SAFETY: lends one slice; a null pointer with length 0 is an empty buffer.
    unsafe { ffi::siphonbard_check(book.as_ptr(), book.len(), ptr::null(), 0) }
}

/// Both calls for listing, on a book that is accepted: into a room that is a null pointer and length 0.
pub fn list_nowhere(book: &[u8], message: &[u8]) -> [Counted; 2] {
    fn by<B>(list: List<B>, book: &[B], message: &[u8]) -> Counted {
        let (start, len) = (message.as_ptr(), message.len());
        // SAFETY: lends two slices; a null pointer with length 0 is an empty buffer; the stream's call gets the numbers
        // of a `Book`.
        unsafe { list(book.as_ptr(), book.len(), start, len, ptr::null_mut(), 0) }
    }
    [by(ffi::siphonbard_list, book, message), by(ffi::siphonbard_stream_list, prepared(book).numbers(), message)]
}

/// Both calls for writing, on a book that is accepted: the draft by another template id.
pub fn write(book: &[u8], template_id: u64, draft: &Draft, room: &mut [u8]) -> [Counted; 2] {
    fn by<B>(write: Write<B>, book: &[B], template_id: u64, draft: &Draft, room: &mut [u8]) -> Counted {
        let Draft { listing, pool, .. } = draft;
        let (numbers, len, start, space) = (listing.as_ptr(), listing.len(), room.as_mut_ptr(), room.len());
        // SAFETY: lends four slices, and the room is borrowed mutably; the stream's call gets the numbers of a `Book`.
        unsafe { write(book.as_ptr(), book.len(), template_id, numbers, len, pool.as_ptr(), pool.len(), start, space) }
    }
    let numbers = prepared(book);
    let free = by(ffi::siphonbard_write, book, template_id, draft, room);
    [free, by(ffi::siphonbard_stream_write, numbers.numbers(), template_id, draft, room)]
}

/// Both calls for writing template 1, with listing and pool null pointers and length 0. So is the room if it is empty.
pub fn write_nothing(book: &[u8], room: &mut [u8]) -> [Counted; 2] {
    fn by<B>(write: Write<B>, book: &[B], room: &mut [u8]) -> Counted {
        let start = if room.is_empty() { ptr::null_mut() } else { room.as_mut_ptr() };
        // SAFETY: lends two slices, and the room is borrowed mutably; a null pointer with length 0 is an empty buffer;
        // the stream's call gets the numbers of a `Book`.
        unsafe { write(book.as_ptr(), book.len(), 1, ptr::null(), 0, ptr::null(), 0, start, room.len()) }
    }
    let free = by(ffi::siphonbard_write, book, room);
    [free, by(ffi::siphonbard_stream_write, prepared(book).numbers(), room)]
}
