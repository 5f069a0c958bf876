//! The exports of `libsiphonbard.a`, declared as `include/siphonbard.h` has them: for what the crate's safe calls
//! cannot say, such as a null pointer, a room that holds nothing yet, an element that is neither field, group nor data,
//! an odd number of numbers for the steps, or a template id over 65535. The header says of each call what comes back
//! and what is left in the buffers.
//!
//! # Safety
//!
//! Of every call: a pointer whose length is above 0 has that many elements, aligned and readable; those of a room are
//! writable, and apart from the other buffers. With length 0 any pointer will do. Of the `siphonbard_stream_` calls:
//! the numbers are those that [`siphonbard_prepare`] stored, all of them and not altered since, such as
//! [`Book::numbers`](crate::Book::numbers) are. Nothing checks that, and with any other numbers the behaviour is
//! undefined.

mod safe;

pub(crate) use safe::{check, check_book, list, place, prepare, write};
pub(crate) use safe::{stream_check, stream_list, stream_place, stream_write};

/// Room for any prepared book: none has more numbers.
pub const PREPARED_MOST: usize = 8260;

/// The verdict of a check.
#[repr(C)]
#[derive(Clone, Copy, Debug, PartialEq, Eq, Hash)]
pub struct Checked {
    /// 0, or the refusal's number.
    pub number: u64,
    /// The refusal's place, or 0.
    pub place: u64,
}

/// A number of records, of a written message's octets, or of a prepared book's numbers.
#[repr(C)]
#[derive(Clone, Copy, Debug, PartialEq, Eq, Hash)]
pub struct Counted {
    /// 0, or the refusal's number.
    pub number: u64,
    /// The refusal's place, or 0.
    pub place: u64,
    /// How many, or 0 where the call is refused.
    pub count: u64,
}

/// What stands at one place: a record of a listing, or zeros where the call is refused.
#[repr(C)]
#[derive(Clone, Copy, Debug, PartialEq, Eq, Hash)]
pub struct Found {
    /// 0, or the refusal's number.
    pub number: u64,
    /// The refusal's place, or 0.
    pub place: u64,
    /// The record's kind: one of the constants of [`Answer`](crate::Answer).
    pub first: u64,
    /// By the kind: a value, a start or a number of entries.
    pub second: u64,
    /// By the kind: a length.
    pub third: u64,
}

extern "C" {
    /// Whether the octets are a schema book: accepted, or 1 to 7.
    pub fn siphonbard_check_book(book: *const u8, book_len: usize) -> Checked;
    /// Whether the message is one of the book's: accepted, or 1 to 22.
    pub fn siphonbard_check(book: *const u8, book_len: usize, message: *const u8, message_len: usize) -> Checked;
    /// Lists the message into the room, or 1 to 40; the place of 40 is the number of records. `room_len` counts
    /// numbers, three a record.
    pub fn siphonbard_list(
        book: *const u8,
        book_len: usize,
        message: *const u8,
        message_len: usize,
        room: *mut u64,
        room_len: usize,
    ) -> Counted;
    /// What stands at one place of the message, or 1 to 31. `steps_len` counts numbers, two a step; `ask` is one of
    /// the constants of [`Element`](crate::Element).
    pub fn siphonbard_place(
        book: *const u8,
        book_len: usize,
        message: *const u8,
        message_len: usize,
        steps: *const u64,
        steps_len: usize,
        ask: u64,
        element: u64,
    ) -> Found;
    /// Writes a message of the template into the room, or 1 to 7 or 50 to 55. `listing_len` counts numbers, three a
    /// record.
    pub fn siphonbard_write(
        book: *const u8,
        book_len: usize,
        template_id: u64,
        listing: *const u64,
        listing_len: usize,
        pool: *const u8,
        pool_len: usize,
        room: *mut u8,
        room_len: usize,
    ) -> Counted;
    /// Checks the book and stores its prepared numbers in the room, or 1 to 7 or 40; the place of 40 is how many they
    /// are.
    pub fn siphonbard_prepare(book: *const u8, book_len: usize, room: *mut u64, room_len: usize) -> Counted;
    /// [`siphonbard_check`] by a prepared book: accepted, or 10 to 22.
    pub fn siphonbard_stream_check(
        prepared: *const u64,
        prepared_len: usize,
        message: *const u8,
        message_len: usize,
    ) -> Checked;
    /// [`siphonbard_list`] by a prepared book, or 10 to 40.
    pub fn siphonbard_stream_list(
        prepared: *const u64,
        prepared_len: usize,
        message: *const u8,
        message_len: usize,
        room: *mut u64,
        room_len: usize,
    ) -> Counted;
    /// [`siphonbard_place`] by a prepared book, or 10 to 31.
    pub fn siphonbard_stream_place(
        prepared: *const u64,
        prepared_len: usize,
        message: *const u8,
        message_len: usize,
        steps: *const u64,
        steps_len: usize,
        ask: u64,
        element: u64,
    ) -> Found;
    /// [`siphonbard_write`] by a prepared book, or 50 to 55.
    pub fn siphonbard_stream_write(
        prepared: *const u64,
        prepared_len: usize,
        template_id: u64,
        listing: *const u64,
        listing_len: usize,
        pool: *const u8,
        pool_len: usize,
        room: *mut u8,
        room_len: usize,
    ) -> Counted;
}
