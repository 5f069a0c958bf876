//! What the library answered, by number and by kind: a test that never met one of them has not tested it.

use super::texts::{self, Text};
use crate::report::Report;
use crate::wire;
use plain::{Book, Refusal, NULL16};

const REFUSALS: [(&str, &[usize]); 5] = [
    ("books", &[1, 2, 3, 4, 5, 6, 7]),
    ("messages", &[10, 11, 12, 13, 14, 15, 16, 17, 18, 19, 20, 21, 22]),
    ("places", &[30, 31]),
    ("rooms", &[40]),
    ("writing", &[50, 51, 52, 53, 54, 55]),
];
const FORMATS: [&str; 4] = ["little-endian by two", "big-endian by two", "little-endian by four", "big-endian by four"];
const COUNTED: [&str; 3] =
    ["more inside a group than the book knows", "17 by a count", "16 inside what it does not know"];
const KINDS: [&str; 7] = ["number", "null", "octets", "absent", "group", "out of range", "unlisted"];

pub struct Seen {
    refusals: [u64; 56],
    /// Books that are refused by 4 for one of their lists.
    pub lists: u64,
    /// Books that are accepted, and have a template whose shortest message is as long as one may be.
    pub longest: u64,
    kinds: [u64; 7],
    /// By `texts::NAMES`.
    texts: [u64; 9],
    /// Messages that were accepted, and listings that were written, by byte order and numbers of a dimension.
    accepted: [u64; 4],
    written: [u64; 4],
    /// Messages with counted dimensions, by `COUNTED`.
    counted: [u64; 3],
    /// Messages that were listed into every room from none to enough.
    pub every_room: u64,
    pub trips: Trips,
}

/// How many messages were written and read back, read and written back to what they were, and read and not written
/// back so, for they are not as the book's writer has them; and how many of the second were not once a text's tail was
/// altered.
#[derive(Default)]
pub struct Trips {
    pub read_back: u64,
    pub written_back: u64,
    pub not_so: u64,
    pub not_by_tail: u64,
}

impl Seen {
    pub fn nothing() -> Seen {
        Seen {
            refusals: [0; 56],
            lists: 0,
            longest: 0,
            kinds: [0; 7],
            texts: [0; 9],
            accepted: [0; 4],
            written: [0; 4],
            counted: [0; 3],
            every_room: 0,
            trips: Trips::default(),
        }
    }

    /// Counts a refusal by its number.
    pub fn outcome<T>(&mut self, outcome: &Result<T, Refusal>) {
        if let Err(refused) = outcome {
            self.refusals[refused.number as usize] += 1;
        }
    }

    pub fn kind(&mut self, kind: u64) {
        self.kinds[kind as usize] += 1;
    }

    pub fn text(&mut self, text: Text) {
        self.texts[text as usize] += 1;
    }

    pub fn accepted_by(&mut self, book: &Book) {
        self.accepted[format(book)] += 1;
    }

    pub fn written_by(&mut self, book: &Book) {
        self.written[format(book)] += 1;
    }

    /// Of a message that a book with counted dimensions accepts, or refuses so.
    pub fn counted(&mut self, book: &Book, octets: &[u8], verdict: Result<(), Refusal>) {
        let unknown = || wire::numbers(book, octets).unknown_inside;
        let number = |at| book.byte_order().number16(octets, at);
        let came = match verdict.map_err(|refused| (refused.number, refused.place as usize)) {
            Ok(()) => [!unknown().is_empty(), false, false],
            Err((17, place)) => [false, number(place) != NULL16 && number(place + 2) != NULL16, false],
            Err((16, place)) => [false, false, unknown().contains(&place)],
            Err(_) => return,
        };
        self.counted.iter_mut().zip(came).for_each(|(count, came)| *count += u64::from(came));
    }

    /// Prints all counts.
    pub fn print(&self) {
        for (what, counts) in self.counts() {
            let line: Vec<String> = counts.iter().map(|(name, count)| format!("{name}: {count}")).collect();
            println!("  {what}: {}", line.join(", "));
        }
    }

    /// Each that never came is a failure.
    pub fn report(&self, report: &mut Report) {
        for (what, counts) in self.counts() {
            for (name, count) in counts {
                let outcome = if count > 0 { Ok(()) } else { Err("never seen".into()) };
                report.check(outcome, || format!("{what}, {name}"));
            }
        }
    }

    /// How often each came, by what it is of.
    fn counts(&self) -> Vec<(String, Vec<(String, u64)>)> {
        let refusals = REFUSALS.iter().map(|(of, numbers)| {
            let counts = numbers.iter().map(|&number| (number.to_string(), self.refusals[number]));
            (format!("refusals of {of}"), counts.collect())
        });
        let others = [
            ("refusals of lists", vec![("4".into(), self.lists)]),
            ("books accepted", vec![("their shortest message of 65,535 octets".into(), self.longest)]),
            ("answers", named(&KINDS, &self.kinds)),
            ("texts", named(&texts::NAMES, &self.texts)),
            ("messages accepted", named(&FORMATS, &self.accepted)),
            ("listings written", named(&FORMATS, &self.written)),
            ("messages by four", named(&COUNTED, &self.counted)),
            ("messages", vec![("listed into every room".into(), self.every_room)]),
            ("round trips", self.trips.counts()),
        ];
        refusals.chain(others.map(|(of, counts)| (of.into(), counts))).collect()
    }
}

impl Trips {
    fn counts(&self) -> Vec<(String, u64)> {
        let Trips { read_back, written_back, not_so, not_by_tail } = *self;
        let names = ["written and read back", "read and written back", "not so", "not so by a text's tail"];
        named(&names, &[read_back, written_back, not_so, not_by_tail])
    }
}

/// The book's number in `FORMATS`.
fn format(book: &Book) -> usize {
    usize::from(book.byte_order) + 2 * usize::from(book.is_counted())
}

/// Counts, each with its name.
fn named(names: &[&str], counts: &[u64]) -> Vec<(String, u64)> {
    names.iter().zip(counts).map(|(name, &count)| (name.to_string(), count)).collect()
}
