//! What is timed: a book, and messages with a place to ask for and a draft to write them back from.

mod books;
mod fill;
mod listed;
mod sized;
mod stream;
mod texts;
mod worst;

use crate::rivals::Asked;
use crate::timing::{Rooms, LAP_MESSAGES};
use fill::{Fill, FULL};
use plain::{Book, Draft, Message, Rng};
use siphonbard::Element;

pub use sized::SIZED;
pub use stream::{big_stream, stream};
pub use worst::WORST;

/// A workload's name, what it is, and how it is made.
pub type Entry = (&'static str, &'static str, fn() -> Workload);

/// All but those of the growth and of the book's size, and the worst.
pub const ALL: [Entry; 12] = [
    ("m", "message M under book A", m),
    ("flat", "an order of ten fields", flat),
    ("entries", "M's shape with 400 entries", || m_with(400)),
    ("deep", "groups in groups, to depth four", || deep(&books::deep())),
    ("deep_four", "the same with dimensions of four numbers", || deep(&books::counted(books::deep()))),
    ("long", "M's shape, as long as it may be", || of_size(64)),
    ("market", "price levels of eight fields, as many as fit", market),
    ("lists", "40 fills, of whose eight fields five have lists; and the same with some unlisted codes", listed::fills),
    ("symbols", "16 orders of seven fields, three of them symbols of 3 to 6 characters in 8 octets", texts::symbols),
    ("texts", "four texts of 1,024 octets, full; and the same up to 24 octets shorter", texts::long),
    ("stream", "eight templates in a random mix; one message in 100 is damaged", stream),
    ("stream_big", "the same messages, big-endian", big_stream),
];

/// The same, the streams by their first messages, and the large books: what is called once to be counted.
pub const COUNTED: [Entry; 15] = [
    ALL[0],
    ALL[1],
    ALL[2],
    ALL[3],
    ALL[4],
    ALL[5],
    ALL[6],
    ALL[7],
    ALL[8],
    ALL[9],
    ("stream", "its first messages", || stream::first(STREAM_START)),
    ("stream_big", "the same, big-endian", || stream::big_first(STREAM_START)),
    SIZED[0][1],
    SIZED[1][1],
    SIZED[2][1],
];

/// As many as have each template, an older version and damage among them.
const STREAM_START: usize = 200;

/// The KiB of the growing messages.
pub const SIZES: [usize; 7] = [1, 2, 4, 8, 16, 32, 64];

pub struct Workload {
    pub book: Vec<u8>,
    /// All messages, one after the other.
    octets: Vec<u8>,
    spans: Vec<Span>,
    asked: Vec<Asked>,
    /// Of the messages that can be written back.
    pub drafts: Vec<Draft>,
    /// Of the listings of all messages that are accepted.
    records: usize,
    drafted_records: usize,
    /// The most of one message.
    most_records: usize,
    longest: usize,
}

/// A message's part of the octets, and which place is asked for in it.
struct Span {
    start: usize,
    end: usize,
    asked: usize,
}

#[derive(Clone, Copy)]
pub struct Sample<'a> {
    pub octets: &'a [u8],
    pub asked: &'a Asked,
}

/// How much there is in a workload, or in its drafts.
#[derive(Clone, Copy)]
pub struct Counts {
    pub messages: usize,
    pub octets: usize,
    pub records: usize,
}

const SEED: u64 = 20140603;

/// What rooms are full of at first.
const PATTERN: u64 = 0x1122_3344_5566_7788;
const OCTET: u8 = 0xa5;

/// Message M of the rules.
const M: [u8; 32] =
    [8, 0, 1, 0, 7, 0, 0, 0, 1, 0, 1, 0, 0xe8, 3, 0, 0, 0xfb, 0xff, 0, 0, 2, 0, 2, 0, 1, 0, 3, 0, 2, 0, 0x61, 0x62];
const M_WITHOUT_ENTRIES: usize = 28;
const M_ENTRY: usize = 2;

fn m() -> Workload {
    Workload::of_one(&books::a(), &M, Asked::new(vec![(0, 1)], Element::Field(0)))
}

/// M's shape in so many KiB; in 64 an entry less, for a message has 65,535 octets at most.
pub fn of_size(kib: usize) -> Workload {
    let octets = (1024 * kib).min(65534);
    m_with((octets - M_WITHOUT_ENTRIES) / M_ENTRY)
}

fn m_with(entries: usize) -> Workload {
    filled(&books::a(), entries, Asked::new(vec![(0, entries as u64 - 1)], Element::Field(0)))
}

fn flat() -> Workload {
    filled(&books::flat(), 0, Asked::new(vec![], Element::Field(9)))
}

fn deep(book: &Book) -> Workload {
    filled(book, 3, Asked::new(vec![(0, 2); 4], Element::Field(1)))
}

fn market() -> Workload {
    const ENTRIES: usize = 2046;
    filled(&books::market(), ENTRIES, Asked::new(vec![(0, ENTRIES as u64 - 1)], Element::Field(7)))
}

/// A message of the book's only template, so many entries in each of its groups.
fn filled(book: &Book, entries: usize, asked: Asked) -> Workload {
    let mut fill = Fill { rng: Rng::new(SEED), entries: entries..=entries, data: 2..=2, text: FULL };
    let message = fill.message(book, &book.templates[0]);
    Workload::of_one(book, &message, asked)
}

impl Workload {
    fn of_one(book: &Book, message: &[u8], asked: Asked) -> Workload {
        let mut workload = Workload::new(book, vec![asked]);
        workload.add(book, message, 0);
        workload
    }

    /// Without messages, and with the places that will be asked for.
    fn new(book: &Book, asked: Vec<Asked>) -> Workload {
        Workload {
            book: book.octets(),
            octets: Vec::new(),
            spans: Vec::new(),
            asked,
            drafts: Vec::new(),
            records: 0,
            drafted_records: 0,
            most_records: 0,
            longest: 0,
        }
    }

    fn add(&mut self, book: &Book, message: &[u8], asked: usize) {
        let start = self.octets.len();
        self.octets.extend(message);
        self.longest = self.longest.max(message.len());
        self.spans.push(Span { start, end: self.octets.len(), asked });
        let accepted = match Message::read(book, message) {
            Ok(accepted) => accepted,
            Err(_) => return,
        };
        let records = accepted.list();
        self.records += records.len();
        self.most_records = self.most_records.max(records.len());
        // A listing with an absent element, or a number that is out of range or unlisted, is none to write.
        if records.iter().all(|record| ![3, 5, 6].contains(&record[0])) {
            self.drafted_records += records.len();
            self.drafts.push(Draft { template: accepted.template, listing: records.concat(), pool: message.to_vec() });
        }
    }

    pub fn samples(&self) -> Vec<Sample<'_>> {
        let octets = |span: &Span| &self.octets[span.start..span.end];
        self.spans.iter().map(|span| Sample { octets: octets(span), asked: &self.asked[span.asked] }).collect()
    }

    /// So many messages that a round of them is long by itself.
    pub fn is_stream(&self) -> bool {
        self.spans.len() > LAP_MESSAGES
    }

    pub fn counts(&self) -> Counts {
        Counts { messages: self.spans.len(), octets: self.octets.len(), records: self.records }
    }

    pub fn drafted(&self) -> Counts {
        let octets = self.drafts.iter().map(|draft| draft.pool.len()).sum();
        Counts { messages: self.drafts.len(), octets, records: self.drafted_records }
    }

    /// Room for any of the listings and any of the messages, and some more.
    pub fn rooms(&self) -> Rooms {
        const MORE: usize = 9;
        Rooms { numbers: vec![PATTERN; 3 * self.most_records + MORE], octets: vec![OCTET; self.longest + MORE] }
    }
}
