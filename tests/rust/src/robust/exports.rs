//! The ten exports by pointers and lengths alone, and what they return for an answer.

use crate::raw;
use plain::{Record, Refusal};
use siphonbard::ffi::{self, Checked, Counted, Found};

/// A buffer as the exports take it. Who makes one sees to it that its elements are there while it is used.
#[derive(Clone, Copy)]
pub struct Lent<T> {
    pub start: *mut T,
    pub len: usize,
}

impl<T> Lent<T> {
    /// No elements, at any address whatever.
    pub fn empty(address: usize) -> Lent<T> {
        Lent { start: address as *mut T, len: 0 }
    }
}

/// The calls that check the book each time, of any octets, or those for streams, of a prepared book's numbers.
pub struct Way<B: 'static> {
    pub name: &'static str,
    check: raw::Check<B>,
    list: raw::List<B>,
    place: raw::Place<B>,
    write: raw::Write<B>,
}

pub static FREE: Way<u8> = Way {
    name: "library",
    check: ffi::siphonbard_check,
    list: ffi::siphonbard_list,
    place: ffi::siphonbard_place,
    write: ffi::siphonbard_write,
};

pub static STREAM: Way<u64> = Way {
    name: "library, book prepared once",
    check: ffi::siphonbard_stream_check,
    list: ffi::siphonbard_stream_list,
    place: ffi::siphonbard_stream_place,
    write: ffi::siphonbard_stream_write,
};

// SAFETY, of all calls: each pointer is lent with the number of its elements, and rooms have memory of their own.

pub fn check_book(book: Lent<u8>) -> Checked {
    unsafe { ffi::siphonbard_check_book(book.start, book.len) }
}

pub fn prepare(book: Lent<u8>, room: Lent<u64>) -> Counted {
    unsafe { ffi::siphonbard_prepare(book.start, book.len, room.start, room.len) }
}

impl<B> Way<B> {
    pub fn by(&'static self, book: Lent<B>) -> By<B> {
        By { way: self, book }
    }
}

/// The calls by one book.
pub struct By<B: 'static> {
    way: &'static Way<B>,
    book: Lent<B>,
}

impl<B> By<B> {
    pub fn name(&self) -> &'static str {
        self.way.name
    }

    pub fn check(&self, message: Lent<u8>) -> Checked {
        unsafe { (self.way.check)(self.book.start, self.book.len, message.start, message.len) }
    }

    pub fn list(&self, message: Lent<u8>, room: Lent<u64>) -> Counted {
        let (book, len) = (self.book.start, self.book.len);
        unsafe { (self.way.list)(book, len, message.start, message.len, room.start, room.len) }
    }

    pub fn place(&self, message: Lent<u8>, steps: Lent<u64>, (kind, element): (u64, u64)) -> Found {
        let (book, len) = (self.book.start, self.book.len);
        unsafe { (self.way.place)(book, len, message.start, message.len, steps.start, steps.len, kind, element) }
    }

    pub fn write(&self, id: u64, listing: Lent<u64>, pool: Lent<u8>, room: Lent<u8>) -> Counted {
        let (book, len, numbers, count) = (self.book.start, self.book.len, listing.start, listing.len);
        unsafe { (self.way.write)(book, len, id, numbers, count, pool.start, pool.len, room.start, room.len) }
    }
}

fn verdict<T>(answer: &Result<T, Refusal>) -> (u64, u64) {
    answer.as_ref().map_or_else(|refused| (refused.number, refused.place), |_| (0, 0))
}

pub fn checked<T>(answer: &Result<T, Refusal>) -> Checked {
    let (number, place) = verdict(answer);
    Checked { number, place }
}

pub fn counted(answer: Result<usize, Refusal>) -> Counted {
    let (number, place) = verdict(&answer);
    Counted { number, place, count: answer.unwrap_or(0) as u64 }
}

pub fn found(answer: Result<Record, Refusal>) -> Found {
    let (number, place) = verdict(&answer);
    let [first, second, third] = answer.unwrap_or([0; 3]);
    Found { number, place, first, second, third }
}
