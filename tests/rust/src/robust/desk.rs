//! One case, asked of every export that it is for, each buffer in a memory of its own. What comes back and what is left
//! in a room are compared with the plain reader's and writer's; the numbers of a prepared book with those of the crate.

use super::cases::{Asked, Case};
use super::exports::{check_book, checked, counted, found, prepare, By, Lent, FREE, STREAM};
use super::memory::{holds, input, room, Kept, Memory};
use crate::readers::own;
use crate::report::same;
use plain::{refusal, writer, Book, Draft, Message, Place, Refusal};
use siphonbard::ffi::Counted;

/// The memories that the buffers of a call are lent from.
pub struct Desk<M> {
    book: M,
    prepared: M,
    message: M,
    steps: M,
    listing: M,
    pool: M,
    room: M,
}

/// A message that is lent, and what the plain reader says of it.
struct Reading<'a> {
    message: Lent<u8>,
    plain: Result<Message<'a>, Refusal>,
    listing: Result<Vec<u64>, Refusal>,
}

/// What a message is written from, lent, and what the plain writer makes of it.
struct Writing {
    template: u64,
    listing: Lent<u64>,
    pool: Lent<u8>,
    plain: Result<Vec<u8>, Refusal>,
}

/// What a call stores: its name, how many elements there are to each that it counts, and its refusal where the room is
/// too small for so many that it counts.
struct Stores {
    name: &'static str,
    each: usize,
    too_small: fn(usize) -> Refusal,
}

const PREPARE: Stores = Stores { name: "prepare", each: 1, too_small: |numbers| refusal(40, numbers) };
const LIST: Stores = Stores { name: "list", each: 3, too_small: |records| refusal(40, records) };
const WRITE: Stores = Stores { name: "write", each: 1, too_small: |_| refusal(55, 0) };

impl<M: Memory> Desk<M> {
    pub fn of(new: impl Fn() -> M) -> Desk<M> {
        let (book, prepared, message, steps) = (new(), new(), new(), new());
        Desk { book, prepared, message, steps, listing: new(), pool: new(), room: new() }
    }

    /// The calls for streams are asked only where the book is accepted, by its numbers: that is their caller's duty.
    pub fn ask(&mut self, case: &Case) -> Result<(), String> {
        let (plain, book) = (Book::read(&case.book), input(&mut self.book, &case.book));
        same("check_book", check_book(book), checked(&plain))?;
        let numbers = siphonbard::Book::checked(&case.book).map(|book| book.numbers().to_vec()).map_err(own);
        let larger = numbers.as_ref().map_or(0, Vec::len) + 5;
        self.rooms(&PREPARE, &numbers, larger, |room| prepare(book, room))?;
        let plain = plain.as_ref().map_err(|refused| *refused);
        let (free, stream) =
            (FREE.by(book), numbers.ok().map(|numbers| STREAM.by(input(&mut self.prepared, &numbers))));
        match &case.asked {
            Asked::Read(octets, places) => {
                let reading = self.reading(plain, octets);
                named(&free, self.read(&free, &reading, places))?;
                stream.map_or(Ok(()), |stream| named(&stream, self.read(&stream, &reading, places)))
            }
            Asked::Write(draft, room) => {
                let writing = self.writing(plain, draft);
                named(&free, self.write(&free, &writing, *room))?;
                stream.map_or(Ok(()), |stream| named(&stream, self.write(&stream, &writing, *room)))
            }
        }
    }

    fn reading<'a>(&mut self, plain: Result<&'a Book, Refusal>, octets: &'a [u8]) -> Reading<'a> {
        let plain = plain.and_then(|book| Message::read(book, octets));
        let listing = plain.as_ref().map(|message| message.list().concat()).map_err(|refused| *refused);
        Reading { message: input(&mut self.message, octets), plain, listing }
    }

    fn read<B>(&mut self, by: &By<B>, reading: &Reading, places: &[Place]) -> Result<(), String> {
        let Reading { message, plain, listing } = reading;
        same("check", by.check(*message), checked(plain))?;
        let larger = listing.as_ref().map_or(0, Vec::len) + 5;
        self.rooms(&LIST, listing, larger, |room| by.list(*message, room))?;
        for place in places {
            self.place(by, reading, place).map_err(|failure| format!("{place:?}, {failure}"))?;
        }
        Ok(())
    }

    /// By its steps, and by one number more, which makes their length odd.
    fn place<B>(&mut self, by: &By<B>, reading: &Reading, place: &Place) -> Result<(), String> {
        let Reading { message, plain, .. } = reading;
        let (mut numbers, element) = (Vec::new(), (place.kind, place.element));
        place.steps.iter().for_each(|&(group, entry)| numbers.extend([group, entry]));
        let plain = plain.as_ref().map_err(|refused| *refused);
        let steps = input(&mut self.steps, &numbers);
        let answer = plain.and_then(|message| message.place(place));
        same("place", by.place(*message, steps, element), found(answer))?;
        numbers.push(0);
        let steps = input(&mut self.steps, &numbers);
        let odd = plain.and(Err(refusal(30, 0)));
        same("place by odd steps", by.place(*message, steps, element), found(odd))
    }

    fn writing(&mut self, plain: Result<&Book, Refusal>, draft: &Draft) -> Writing {
        let (listing, pool) = (input(&mut self.listing, &draft.listing), input(&mut self.pool, &draft.pool));
        let plain = plain.and_then(|book| writer::message(book, draft));
        Writing { template: draft.template.into(), listing, pool, plain }
    }

    fn write<B>(&mut self, by: &By<B>, writing: &Writing, larger: usize) -> Result<(), String> {
        let Writing { template, listing, pool, plain } = writing;
        self.rooms(&WRITE, plain, larger, |room| by.write(*template, *listing, *pool, room))
    }

    /// Calls with rooms that are exact, one short, empty, and of another size. Where what is to be stored finds no
    /// room, and where the call is refused for another reason, nothing is stored.
    fn rooms<T: Kept>(
        &mut self,
        stores: &Stores,
        stored: &Result<Vec<T>, Refusal>,
        other: usize,
        call: impl Fn(Lent<T>) -> Counted,
    ) -> Result<(), String> {
        let &Stores { name, each, too_small } = stores;
        let exact = stored.as_ref().map_or(0, Vec::len);
        for len in [exact, exact.saturating_sub(1), 0, other] {
            let room = room(&mut self.room, len);
            let stored = match stored {
                Ok(elements) if elements.len() > len => Err(too_small(elements.len() / each)),
                Ok(elements) => Ok(&elements[..]),
                Err(refused) => Err(*refused),
            };
            let in_room = |failure| format!("room of {len}, {failure}");
            same(name, call(room), counted(stored.map(|elements| elements.len() / each))).map_err(in_room)?;
            same("room as it is to be left", holds::<M, T>(room, stored.unwrap_or(&[])), true).map_err(in_room)?;
        }
        Ok(())
    }
}

fn named<B>(by: &By<B>, outcome: Result<(), String>) -> Result<(), String> {
    outcome.map_err(|failure| format!("{}: {failure}", by.name()))
}
