//! A safe function for each export: all of the crate's unsafe code.
//!
//! What every SAFETY comment below rests on: a slice of Rust is that many readable elements (writable, and apart
//! from all others, behind `&mut`), the exports use nothing but what they are lent, and keep no pointer when they
//! return. They are proved to do so on any octets; the `stream_` ones on all numbers that `siphonbard_prepare` stored.

use super::*;
use crate::{Answer, Book, Element, Refusal, Step};

fn verdict(number: u64, place: u64) -> Result<(), Refusal> {
    match number {
        0 => Ok(()),
        _ => Err(Refusal { number: number as u8, place: place as usize }),
    }
}

impl Checked {
    fn result(self) -> Result<(), Refusal> {
        verdict(self.number, self.place)
    }
}

impl Counted {
    fn result(self) -> Result<usize, Refusal> {
        verdict(self.number, self.place).map(|()| self.count as usize)
    }
}

impl Found {
    fn result(self) -> Result<Answer, Refusal> {
        let record = [self.first, self.second, self.third];
        verdict(self.number, self.place).map(|()| Answer::from_record(record).expect("a kind of 0 to 6"))
    }
}

/// The steps as the exports take them: a group's number and an entry's by turns. `Step` is these two and nothing
/// else.
fn numbers(steps: &[Step]) -> (*const u64, usize) {
    (steps.as_ptr().cast(), steps.len() * 2)
}

pub fn check_book(book: &[u8]) -> Result<(), Refusal> {
    // SAFETY: lends one slice.
    unsafe { siphonbard_check_book(book.as_ptr(), book.len()) }.result()
}

pub fn check(book: &[u8], message: &[u8]) -> Result<(), Refusal> {
    // SAFETY: lends two slices.
    unsafe { siphonbard_check(book.as_ptr(), book.len(), message.as_ptr(), message.len()) }.result()
}

pub fn list(book: &[u8], message: &[u8], room: &mut [u64]) -> Result<usize, Refusal> {
    let (start, len) = (room.as_mut_ptr(), room.len());
    // SAFETY: lends three slices, and `room` is borrowed mutably.
    unsafe { siphonbard_list(book.as_ptr(), book.len(), message.as_ptr(), message.len(), start, len) }.result()
}

pub fn place(book: &[u8], message: &[u8], steps: &[Step], element: Element) -> Result<Answer, Refusal> {
    let ((start, len), (ask, number)) = (numbers(steps), element.numbers());
    // SAFETY: lends three slices; `Step` is `repr(C)` with two u64, so `steps` is `len` of them.
    unsafe { siphonbard_place(book.as_ptr(), book.len(), message.as_ptr(), message.len(), start, len, ask, number) }
        .result()
}

pub fn write(book: &[u8], id: u16, listing: &[u64], pool: &[u8], room: &mut [u8]) -> Result<usize, Refusal> {
    // SAFETY: lends four slices, and `room` is borrowed mutably.
    unsafe {
        siphonbard_write(
            book.as_ptr(),
            book.len(),
            id.into(),
            listing.as_ptr(),
            listing.len(),
            pool.as_ptr(),
            pool.len(),
            room.as_mut_ptr(),
            room.len(),
        )
    }
    .result()
}

pub fn prepare(book: &[u8], room: &mut [u64]) -> Result<usize, Refusal> {
    let (start, len) = (room.as_mut_ptr(), room.len());
    // SAFETY: lends two slices, and `room` is borrowed mutably.
    unsafe { siphonbard_prepare(book.as_ptr(), book.len(), start, len) }.result()
}

pub fn stream_check(book: &Book, message: &[u8]) -> Result<(), Refusal> {
    let book = book.numbers();
    // SAFETY: lends two slices; a `Book` has all numbers that `prepare` stored for it, and nothing alters them.
    unsafe { siphonbard_stream_check(book.as_ptr(), book.len(), message.as_ptr(), message.len()) }.result()
}

pub fn stream_list(book: &Book, message: &[u8], room: &mut [u64]) -> Result<usize, Refusal> {
    let book = book.numbers();
    let (start, len) = (room.as_mut_ptr(), room.len());
    // SAFETY: as for `stream_check`; `room` is borrowed mutably.
    unsafe { siphonbard_stream_list(book.as_ptr(), book.len(), message.as_ptr(), message.len(), start, len) }.result()
}

pub fn stream_place(book: &Book, message: &[u8], steps: &[Step], element: Element) -> Result<Answer, Refusal> {
    let book = book.numbers();
    let ((start, len), (ask, number)) = (numbers(steps), element.numbers());
    // SAFETY: as for `stream_check`; `steps` as for `place`.
    unsafe {
        siphonbard_stream_place(book.as_ptr(), book.len(), message.as_ptr(), message.len(), start, len, ask, number)
    }
    .result()
}

pub fn stream_write(book: &Book, id: u16, listing: &[u64], pool: &[u8], room: &mut [u8]) -> Result<usize, Refusal> {
    let book = book.numbers();
    // SAFETY: as for `stream_check`; `room` is borrowed mutably.
    unsafe {
        siphonbard_stream_write(
            book.as_ptr(),
            book.len(),
            id.into(),
            listing.as_ptr(),
            listing.len(),
            pool.as_ptr(),
            pool.len(),
            room.as_mut_ptr(),
            room.len(),
        )
    }
    .result()
}
