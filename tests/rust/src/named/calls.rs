//! What the safe crate and the C calls have besides answers and messages: views of an answer, listings made record by
//! record, words for refusals, null pointers, odd lengths.

use super::byte_orders::{big, big_m};
use super::dimensions::{four, four_m};
use super::writing::draft_of_m;
use super::{books, messages};
use crate::raw;
use crate::report::same;
use plain::Block;
use siphonbard::ffi::Counted;
use siphonbard::{answers, Answer, Book, Element, Listing, Refusal, Step};

pub type Call = fn() -> Result<(), String>;

pub fn calls() -> Vec<(&'static str, Call)> {
    vec![
        ("crate: its example", example),
        ("crate: answers and records", records),
        ("crate: octets as text", text),
        ("crate: the example of a listing", listing_example),
        ("crate: a listing of what cannot be written", unwritable),
        ("crate: refusals in words", words),
        ("C: a null pointer of length 0 is an empty buffer", null_pointers),
        ("C: an odd number of numbers for the steps: 30", odd_steps),
        ("C: writing with null pointers", null_writing),
        ("C: writing a template id over 65535: 50", wide_ids),
    ]
}

/// The example of the crate's page.
fn example() -> Result<(), String> {
    let (octets, message) = (books::a(), messages::m());
    let book = Book::checked(&octets).map_err(|refused| refused.to_string())?;
    let ask = |steps: &[Step], element| book.place(&message, steps, element);
    same("first field", ask(&[], Element::Field(0)), Ok(Answer::Number(1000)))?;
    same("second field", ask(&[], Element::Field(1)).map(|answer| answer.signed()), Ok(Some(-5)))?;
    let second = [Step { group: 0, entry: 1 }];
    same("second entry", ask(&second, Element::Field(0)).map(|answer| answer.unsigned()), Ok(Some(3)))?;
    let data = ask(&[], Element::Data(0)).map(|answer| answer.octets(&message));
    same("data", data, Ok(Some(&b"ab"[..])))?;
    same("list_all", siphonbard::list_all(&octets, &message).map(|all| all.len()), Ok(6))?;
    let turned = siphonbard::list_all(&big(octets.clone()), &big_m());
    same("list_all, big-endian", turned, book.list_all(&message))?;
    let counted = siphonbard::list_all(&four(octets), &four_m()).map(|all| all[..5].to_vec());
    same("list_all, counted dimensions", counted, book.list_all(&message).map(|all| all[..5].to_vec()))
}

fn records() -> Result<(), String> {
    let listing = [0, 9, 0, 1, 0, 0, 2, 30, 2, 3, 0, 0, 4, 2, 0, 5, 7, 0, 6, 8, 0];
    let all: Vec<Answer> = answers(&listing).collect();
    let octets = Answer::Octets { start: 30, len: 2 };
    let (number, group, out, unlisted) =
        (Answer::Number(9), Answer::Group(2), Answer::OutOfRange(7), Answer::Unlisted(8));
    let expected = [number, Answer::Null, octets, Answer::Absent, group, out, unlisted];
    same("answers", &all[..], &expected)?;
    same("back", all.iter().flat_map(|answer| answer.record()).collect(), listing.to_vec())?;
    same("a kind over 6", Answer::from_record([7, 0, 0]), None)?;
    same("octets past the message", octets.octets(&[0; 31]), None)?;
    let values: Vec<Option<u64>> = all.iter().map(Answer::unsigned).collect();
    same("only a number has a value", values, vec![Some(9), None, None, None, None, None, None])
}

/// Only octets that are all ASCII, and all there, are.
fn text() -> Result<(), String> {
    let message = b"MEAL\0\x7f\x80";
    let octets = |start, len| Answer::Octets { start, len }.text(message);
    same("four letters", octets(0, 4), Some("MEAL"))?;
    same("no octets", [octets(2, 0), octets(7, 0)], [Some(""); 2])?;
    same("NUL and 127", octets(4, 2), Some("\0\x7f"))?;
    same("128", [octets(5, 2), octets(6, 1)], [None; 2])?;
    same("past the message", [octets(6, 2), octets(8, 0), octets(usize::MAX, 2)], [None; 3])?;
    let others = [Answer::Number(65), Answer::Null, Answer::Absent, Answer::Group(4), Answer::OutOfRange(0)];
    same("no octets at all", others.iter().find_map(|answer| answer.text(message)), None)
}

/// The example of `Listing`.
fn listing_example() -> Result<(), String> {
    let (octets, expected) = (books::a(), messages::m());
    let book = Book::checked(&octets).map_err(|refused| refused.to_string())?;
    let mut listing = Listing::new();
    listing.number(1000).signed(-5);
    listing.group(2).number(1).number(3);
    listing.octets(b"ab");
    same("write_listing", book.write_listing(1, &listing).as_ref(), Ok(&expected))?;
    let all = siphonbard::write_all(&octets, 1, listing.numbers(), listing.pool());
    same("write_all", all.as_ref(), Ok(&expected))?;
    let mut again = Listing::new();
    for answer in book.list_all(&expected).map_err(|refused| refused.to_string())? {
        again.record(answer, &expected);
    }
    same("read and written back", &again, &listing)?;
    listing.null();
    same("one record more", book.write_listing(1, &listing), Err(Refusal { number: 51, place: 6 }))
}

/// What is refused only by the writing, each in the place of M's data.
fn unwritable() -> Result<(), String> {
    let (octets, message) = (books::a(), messages::m());
    let book = Book::checked(&octets).map_err(|refused| refused.to_string())?;
    let octets = |start, len| Answer::Octets { start, len };
    let (past, none, wrapping) = (octets(31, 2), octets(33, 0), octets(usize::MAX, 2));
    let (absent, out, unlisted) = (Answer::Absent, Answer::OutOfRange(7), Answer::Unlisted(7));
    for (answer, number) in [(absent, 51), (out, 51), (unlisted, 51), (past, 53), (none, 53), (wrapping, 53)] {
        let mut listing = Listing::new();
        listing.number(1000).null().group(0).record(answer, &message);
        same("write_listing", book.write_listing(1, &listing), Err(Refusal { number, place: 3 }))?;
    }
    Ok(())
}

fn words() -> Result<(), String> {
    let said = Refusal { number: 16, place: 28 }.to_string();
    same("16", said.as_str(), "refused 16 at octet 28: an element runs past the message's end")?;
    let unknown = Refusal { number: 99, place: 0 };
    same("99", (unknown.meaning(), unknown.place_meaning()), ("unknown", "unknown"))?;
    let said = Refusal { number: 40, place: 6 }.to_string();
    let room =
        "refused 40 for 6 records: the room is below three numbers per record, or below a prepared book's numbers";
    same("40", said.as_str(), room)?;
    let said = [4, 5, 7].map(|number| Refusal { number, place: 1 }.to_string());
    let starts = ["refused 4 in body 1: ", "refused 5 in template 1: ", "refused 7 in template 1: "];
    same("4, 5 and 7", said.iter().zip(starts).all(|(said, start)| said.starts_with(start)), true)?;
    let said = Refusal { number: 54, place: 2 }.to_string();
    same("54", said.as_str(), "refused 54 at record 2: a group has over 65,534 entries")?;
    let said = Refusal { number: 55, place: 0 }.to_string();
    same("55", said.as_str(), "refused 55: the message is longer than the room or than 65,535 octets")?;
    let mut known = (1..=7).chain(10..=22).chain([30, 31, 40]).chain(50..=55);
    let silent = known.find(|&number| {
        let refusal = Refusal { number, place: 0 };
        refusal.meaning() == "unknown" || refusal.place_meaning() == "unknown"
    });
    same("a number without words", silent, None)
}

fn null_pointers() -> Result<(), String> {
    let book = raw::check_null_book();
    same("book", (book.number, book.place), (1, 0))?;
    let message = raw::check_null_message(&books::a());
    same("message", (message.number, message.place), (10, 0))
}

fn odd_steps() -> Result<(), String> {
    let (octets, message) = (books::a(), messages::m());
    let book = Book::checked(&octets).map_err(|refused| refused.to_string())?;
    for steps in [&[0][..], &[0, 1, 0]] {
        let no = Err(Refusal { number: 30, place: 0 });
        same("siphonbard_place", raw::place(&octets, &message, steps, 0, 0), no)?;
        same("siphonbard_stream_place", raw::stream_place(&book, &message, steps, 0, 0), no)?;
    }
    Ok(())
}

/// Of a template without elements, whose listing and pool are empty.
fn null_writing() -> Result<(), String> {
    let book = books::of(Block::default());
    let mut room = [0xff; 13];
    let [free, stream] = raw::write_nothing(&book, &mut room);
    same("both", &free, &stream)?;
    same("written", free, Counted { number: 0, place: 0, count: 12 })?;
    same("room", room, [0, 0, 1, 0, 7, 0, 0, 0, 0, 0, 0, 0, 0xff])?;
    let [free, stream] = raw::write_nothing(&book, &mut []);
    same("both", &free, &stream)?;
    same("no room", free, Counted { number: 55, place: 0, count: 0 })
}

/// Also where their last 16 bits are a template's. A refusal has 0 for its count.
fn wide_ids() -> Result<(), String> {
    for (id, number, count) in [(1, 0, 32), (65537, 50, 0), ((1 << 32) + 1, 50, 0), ((1 << 63) + 1, 50, 0)] {
        let mut room = [0xff; 32];
        for counted in raw::write(&books::a(), id, &draft_of_m(), &mut room) {
            same("write", counted, Counted { number, place: 0, count })?;
        }
        same("room", room == [0xff; 32], number != 0)?;
    }
    Ok(())
}
