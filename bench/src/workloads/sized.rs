//! One message by a small book and by a large one: what the message does not have is to cost nothing.

use super::{books, Entry, Workload};
use crate::rivals::Asked;
use plain::{writer, Book, Draft};
use siphonbard::Element;

/// In each pair the large book comes last, and has the pair's name.
pub const SIZED: [[Entry; 2]; 3] = [
    [
        ("narrow", "a group in a group", || by(&books::narrow(), ENTRIES)),
        ("wide", "the same; in the inner group 16 groups of 16 groups each", || by(&books::wide(), ENTRIES)),
    ],
    [
        ("young", "a group in a group; in the inner one a field that is younger than the message", || {
            by(&books::younger(1), ENTRIES)
        }),
        ("younger", "the same with 63 such fields", || by(&books::younger(63), ENTRIES)),
    ],
    [
        ("counted", "a group in a group, with dimensions of four numbers", || {
            by(&books::counted(books::narrow()), COUNTED_ENTRIES)
        }),
        ("aged", "the same; in the inner group 16 groups and 16 data that are younger than the message", || {
            by(&books::aged(), COUNTED_ENTRIES)
        }),
    ],
];

/// As many entries as fit.
const ENTRIES: u64 = 13103;
const COUNTED_ENTRIES: u64 = 7279;

/// A message of version 0: entries of a uint8 and an empty group.
fn by(book: &Book, entries: u64) -> Workload {
    let entry = |number: u64| [0, number % 251, 0, 4, 0, 0];
    let listing = [4, entries, 0].into_iter().chain((0..entries).flat_map(entry)).collect();
    let draft = Draft { template: 1, listing, pool: Vec::new() };
    let oldest = Book { dimension: book.dimension, ..books::narrow() };
    let message = writer::message(&oldest, &draft).expect("every value is in range");
    Workload::of_one(book, &message, Asked::new(vec![(0, entries - 1)], Element::Group(0)))
}
