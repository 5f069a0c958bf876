//! Messages as long as they may be, of which the book knows next to nothing, or whose entries lack nearly all that it
//! has.

use super::{books, Entry, Workload};
use crate::rivals::Asked;
use plain::{Book, LONGEST};
use siphonbard::Element;

pub const WORST: [Entry; 4] = [
    ("unknown_groups", "8,190 unknown groups of 65,534 entries without octets", unknown_groups),
    ("unknown_data", "an unknown group of 32,757 entries, each an empty data", unknown_data),
    ("unknown_inner", "an unknown group of 8,189 entries, each an empty group", unknown_inner),
    ("absent", "65,514 entries of an octet, which lack 16 groups and 16 data of the book's", absent),
];

/// A header and a root block of one octet.
const ROOT: usize = 13;
const DIMENSION: usize = 8;

fn unknown_groups() -> Workload {
    const MOST_ENTRIES: u16 = 65534;
    let groups = (LONGEST - ROOT) / DIMENSION;
    unknown(groups, dimension(0, MOST_ENTRIES, 0, 0).repeat(groups))
}

fn unknown_data() -> Workload {
    const EMPTY: usize = 2;
    let entries = (LONGEST - ROOT - DIMENSION) / EMPTY;
    unknown(1, [dimension(0, entries as u16, 0, 1), vec![0; EMPTY * entries]].concat())
}

fn unknown_inner() -> Workload {
    let entries = (LONGEST - ROOT - DIMENSION) / DIMENSION;
    unknown(1, [dimension(0, entries as u16, 1, 0), vec![0; DIMENSION * entries]].concat())
}

/// Of a version before those of what is absent.
fn absent() -> Workload {
    let entries = LONGEST - ROOT - DIMENSION;
    let octets = [dimension(1, entries as u16, 0, 0), vec![7; entries]].concat();
    let last = Asked::new(vec![(0, entries as u64 - 1)], Element::Data(15));
    unwritten(&books::absent(), 0, 1, octets, last)
}

/// So many groups of a later version, by a book that has none.
fn unknown(groups: usize, octets: Vec<u8>) -> Workload {
    let book = books::groupless();
    unwritten(&book, book.version + 1, groups as u16, octets, Asked::new(vec![], Element::Field(0)))
}

fn dimension(length: u16, entries: u16, groups: u16, data: u16) -> Vec<u8> {
    octets(&[length, entries, groups, data])
}

fn octets(numbers: &[u16]) -> Vec<u8> {
    numbers.iter().flat_map(|number| number.to_le_bytes()).collect()
}

/// It is not written back: what is unknown would be lost, and what is absent cannot be written.
fn unwritten(book: &Book, version: u16, groups: u16, rest: Vec<u8>, asked: Asked) -> Workload {
    let header = octets(&[1, book.templates[0].id, book.schema, version, groups, 0]);
    let mut workload = Workload::of_one(book, &[header, vec![7], rest].concat(), asked);
    workload.drafts.clear();
    workload
}
