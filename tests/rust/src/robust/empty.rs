//! Buffers of length 0 at addresses where nothing can be read: to every export each of its buffers is empty then, and
//! no pointer is followed.

use super::exports::{check_book, prepare, By, Lent, FREE, STREAM};
use super::guarded::{Guarded, Side};
use super::memory::{holds, input, room, Memory};
use crate::report::{same, Report};
use siphonbard::ffi::{Checked, Counted, Found};
use siphonbard::Book;

/// Book A of the rules.
const BOOK: [u16; 43] = [
    7, 0, 1, 43, 0, 0, 2, 1, 10, 33, 8, 2, 1, 1, 38, 6, 1, 0, 0, 0, 0, 44, 3, 1, 4, 1, 0, 0, 58, 0, 453, 0, 2, 1, 0, 0,
    452, 2, 1, 0, 0, 0, 0,
];
/// Message M of the rules.
const MESSAGE: [u16; 16] = [8, 1, 7, 0, 1, 1, 1000, 0, 65531, 0, 2, 2, 1, 3, 2, 0x6261];
/// A book whose template has no elements, and its message.
const BARE_BOOK: [u16; 14] = [7, 0, 1, 14, 0, 0, 2, 1, 10, 4, 0, 0, 0, 0];
const BARE_MESSAGE: [u16; 6] = [0, 1, 7, 0, 0, 0];
/// M's listing under A.
const LISTING: [u64; 18] = [0, 1000, 0, 0, u64::MAX - 4, 0, 4, 2, 0, 0, 1, 0, 0, 3, 0, 2, 30, 2];
/// To the second entry of M's group.
const STEPS: [u64; 2] = [0, 1];
const FIELD: (u64, u64) = (0, 0);

pub fn run(report: &mut Report) {
    let new = || Guarded::at(Side::End);
    let mut memories = [new(), new(), new(), new(), new(), new(), new(), new(), new(), new()];
    let full = Buffers::lie(&mut memories);
    let (free, stream) = (FREE.by(full.book), STREAM.by(full.prepared));
    let (bare_free, bare_stream) = (FREE.by(full.bare_book), STREAM.by(full.bare_prepared));
    let mut guarded = new();
    let (unreadable, last) = (guarded.take(0) as usize, usize::MAX - 7);
    for (name, at) in [("null", 0), ("address 8", 8), ("an unreadable page", unreadable), ("the last address", last)] {
        let by_book = [calls(&free, &bare_free, &full, at), calls(&stream, &bare_stream, &full, at)].concat();
        let calls = [by_book, calls_without_book(&full, at), calls_to_prepare(&full, at)].concat();
        let mut passes = |call: &Call| {
            let outcome = same(call.name, call.answer, call.expected);
            report.check(outcome, || format!("{}, empty buffers at {name}", call.way))
        };
        let passed = calls.iter().filter(|call| passes(call)).count();
        println!("calls with empty buffers at {name}: {passed} of {}", calls.len());
    }
    let unaltered = holds::<Guarded, _>(full.numbers, &[]) && holds::<Guarded, _>(full.octets, &[]);
    report.check(same("unaltered", unaltered, true), || "rooms of calls with empty buffers".into());
}

/// What the calls are lent where it is not to be empty.
struct Buffers {
    book: Lent<u8>,
    prepared: Lent<u64>,
    message: Lent<u8>,
    bare_book: Lent<u8>,
    bare_prepared: Lent<u64>,
    bare_message: Lent<u8>,
    steps: Lent<u64>,
    listing: Lent<u64>,
    numbers: Lent<u64>,
    octets: Lent<u8>,
}

impl Buffers {
    fn lie(memories: &mut [Guarded; 10]) -> Buffers {
        let [book, prepared, message, bare_book, bare_prepared, bare_message, steps, listing, numbers, octets] =
            memories;
        let octets_of = |words: &[u16]| words.iter().flat_map(|word| word.to_le_bytes()).collect::<Vec<u8>>();
        let numbers_of = |words: &[u16]| Book::checked(&octets_of(words)).expect("a book").numbers().to_vec();
        Buffers {
            book: input(book, &octets_of(&BOOK)),
            prepared: input(prepared, &numbers_of(&BOOK)),
            message: input(message, &octets_of(&MESSAGE)),
            bare_book: input(bare_book, &octets_of(&BARE_BOOK)),
            bare_prepared: input(bare_prepared, &numbers_of(&BARE_BOOK)),
            bare_message: input(bare_message, &octets_of(&BARE_MESSAGE)),
            steps: input(steps, &STEPS),
            listing: input(listing, &LISTING),
            numbers: room(numbers, LISTING.len()),
            octets: room(octets, 2 * MESSAGE.len()),
        }
    }
}

/// A call: its name and the buffers that are empty, what it answered, and what it is to answer.
#[derive(Clone, Copy)]
struct Call {
    way: &'static str,
    name: &'static str,
    answer: Answer,
    expected: Answer,
}

/// Number and place, and then a count, a record or zeros.
type Answer = [u64; 5];

fn refused(way: &'static str, name: &'static str, reply: impl Reply, number: u64, place: u64) -> Call {
    Call { way, name, answer: reply.answer(), expected: [number, place, 0, 0, 0] }
}

/// Each buffer but the book's. M without room has its six records; without steps it has its first field; without its
/// pool the last record is at fault.
fn calls<B>(by: &By<B>, bare: &By<B>, full: &Buffers, at: usize) -> Vec<Call> {
    let (none, nothing) = (Lent::empty(at), Lent::empty(at));
    let &Buffers { message, bare_message, steps, listing, numbers, octets, .. } = full;
    let no_records = bare.list(bare_message, nothing).answer();
    let first = by.place(message, nothing, FIELD).answer();
    let (way, write) = (by.name(), |listing, pool, octets| by.write(1, listing, pool, octets));
    vec![
        refused(way, "check, message", by.check(none), 10, 0),
        refused(way, "list, message", by.list(none, numbers), 10, 0),
        refused(way, "list, room", by.list(message, nothing), 40, 6),
        refused(way, "list, message and room", by.list(none, nothing), 10, 0),
        Call { way, name: "list, room, no records", answer: no_records, expected: [0; 5] },
        refused(way, "place, message", by.place(none, steps, FIELD), 10, 0),
        Call { way, name: "place, steps", answer: first, expected: [0, 0, 0, 1000, 0] },
        refused(way, "place, message and steps", by.place(none, nothing, FIELD), 10, 0),
        refused(way, "write, listing", write(nothing, message, octets), 51, 0),
        refused(way, "write, pool", write(listing, none, octets), 53, 5),
        refused(way, "write, room", write(listing, message, none), 55, 0),
        refused(way, "write, listing and pool", write(nothing, none, octets), 51, 0),
        refused(way, "write, pool and room", write(listing, none, none), 53, 5),
        refused(way, "write, listing, pool and room", write(nothing, none, none), 51, 0),
    ]
}

/// An empty book is refused, whatever else is lent. The calls for streams are not to have one.
fn calls_without_book(full: &Buffers, at: usize) -> Vec<Call> {
    let (none, nothing) = (Lent::empty(at), Lent::empty(at));
    let &Buffers { message, steps, listing, numbers, octets, .. } = full;
    let (way, by) = (FREE.name, FREE.by(none));
    vec![
        refused(way, "check_book", check_book(none), 1, 0),
        refused(way, "check, book", by.check(message), 1, 0),
        refused(way, "check, all", by.check(none), 1, 0),
        refused(way, "list, book", by.list(message, numbers), 1, 0),
        refused(way, "list, all", by.list(none, nothing), 1, 0),
        refused(way, "place, book", by.place(message, steps, FIELD), 1, 0),
        refused(way, "place, all", by.place(none, nothing, FIELD), 1, 0),
        refused(way, "write, book", by.write(1, listing, message, octets), 1, 0),
        refused(way, "write, all", by.write(1, nothing, none, none), 1, 0),
    ]
}

/// A book without room has so many numbers.
fn calls_to_prepare(full: &Buffers, at: usize) -> Vec<Call> {
    let (way, need) = (FREE.name, full.prepared.len as u64);
    vec![
        refused(way, "prepare, book", prepare(Lent::empty(at), full.numbers), 1, 0),
        refused(way, "prepare, room", prepare(full.book, Lent::empty(at)), 40, need),
        refused(way, "prepare, book and room", prepare(Lent::empty(at), Lent::empty(at)), 1, 0),
    ]
}

trait Reply {
    fn answer(self) -> Answer;
}

impl Reply for Checked {
    fn answer(self) -> Answer {
        [self.number, self.place, 0, 0, 0]
    }
}

impl Reply for Counted {
    fn answer(self) -> Answer {
        [self.number, self.place, self.count, 0, 0]
    }
}

impl Reply for Found {
    fn answer(self) -> Answer {
        [self.number, self.place, self.first, self.second, self.third]
    }
}
