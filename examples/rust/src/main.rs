//! Reads a fill, asks for its filled quantity alone, and writes it back: `read_fill BOOK MESSAGE`.
//!
//! Prints what the fill says, or the refusal. Exit status: 0 read, 1 refused, 2 without two files.

use siphonbard::{Answer, Book, Element, Refusal, Step};
use std::ffi::OsString;
use std::{env, fs, process};

/// The template of a fill, and its elements in the order of a listing: fields, the group of mills, a note. In a mill's
/// entry there may be a group of deliveries.
const FILL: u16 = 1;
const FIELDS: [&str; 6] = ["order", "price", "delivery week", "side", "conditions", "filled quantity"];
const MILL: [&str; 2] = ["  mill", "  share"];
const DELIVERY: [&str; 2] = ["    week", "    tonnes"];

/// The filled quantity is this field of the root block. The oldest book lacks it.
const QUANTITY: usize = 5;

/// The deliveries are this group of a mill. Only the newest book has them.
const FIRST_MILL: Step = Step { group: 0, entry: 0 };
const DELIVERIES: usize = 0;

fn main() {
    let paths: Vec<OsString> = env::args_os().skip(1).collect();
    if paths.len() != 2 {
        stop("usage: read_fill BOOK MESSAGE");
    }
    if let Err(refusal) = read_fill(&octets_of(&paths[0]), &octets_of(&paths[1])) {
        println!("{refusal}");
        process::exit(1);
    }
}

fn read_fill(book: &[u8], message: &[u8]) -> Result<(), Refusal> {
    let book = Book::checked(book)?;
    let records = book.list_all(message)?;
    let quantity = book.place(message, &[], Element::Field(QUANTITY));
    let fields = if is_known(quantity) { &FIELDS[..] } else { &FIELDS[..QUANTITY] };
    let deliveries = is_known(book.place(message, &[FIRST_MILL], Element::Group(DELIVERIES)));
    show(fields, deliveries, &records, message);
    println!("filled quantity, asked alone: {}", said(quantity.map(|answer| words(answer, message))));
    println!("written back: {}", said(written_back(&book, &records, message)));
    Ok(())
}

/// Whether the book has the element that was asked for, whatever the message has.
fn is_known(asked: Result<Answer, Refusal>) -> bool {
    !matches!(asked, Err(Refusal { number: Refusal::PLACE_UNKNOWN, .. }))
}

/// A line for each record of the listing, with its element's name.
fn show(fields: &[&str], deliveries: bool, records: &[Answer], message: &[u8]) {
    let mut rest = records.iter();
    // A line for each name, and how many entries the last one has, if it is a group.
    let mut lines = |names: &[&str]| {
        let mut entries = 0;
        for (name, &answer) in names.iter().zip(&mut rest) {
            println!("{name:17}{}", words(answer, message));
            entries = answer.entries().unwrap_or(0);
        }
        entries
    };
    lines(fields);
    for _ in 0..lines(&["mills"]) {
        lines(&MILL);
        for _ in 0..if deliveries { lines(&["  deliveries"]) } else { 0 } {
            lines(&DELIVERY);
        }
    }
    lines(&["note"]);
}

fn words(answer: Answer, message: &[u8]) -> String {
    match answer {
        // No field of a fill is a uint64, so every value is that of a signed number.
        Answer::Number(value) => format!("{}", value as i64),
        Answer::Null => "null".to_string(),
        Answer::Octets { .. } => text(answer.octets(message).unwrap_or(b"")),
        Answer::Absent => "absent: it is younger than the message".to_string(),
        Answer::Group(entries) => format!("group of {entries}"),
        Answer::OutOfRange(value) => format!("out of range: {}", value as i64),
        Answer::Unlisted(value) => format!("unlisted: {value}"),
    }
}

/// The octets as characters; those that cannot be shown are dots.
fn text(octets: &[u8]) -> String {
    octets.iter().map(|&octet| if (32..127).contains(&octet) { octet as char } else { '.' }).collect()
}

/// Writes a message of the book's own version from the records: is it the message that was read?
fn written_back(book: &Book, records: &[Answer], message: &[u8]) -> Result<String, Refusal> {
    let listing: Vec<u64> = records.iter().flat_map(Answer::record).collect();
    let written = book.write_all(FILL, &listing, message)?;
    let same = if written == message { "the same" } else { "not the same" };
    Ok(format!("{} octets, {same}", written.len()))
}

/// The text, or the refusal: its number and place, in words.
fn said(text: Result<String, Refusal>) -> String {
    text.unwrap_or_else(|refusal| refusal.to_string())
}

fn octets_of(path: &OsString) -> Vec<u8> {
    fs::read(path).unwrap_or_else(|error| stop(&format!("{}: {error}", path.to_string_lossy())))
}

fn stop(why: &str) -> ! {
    eprintln!("{why}");
    process::exit(2)
}
