//! Fills whose codes and flags are listed, and the same with some that are not.

use super::{books, Fill, Workload, FULL, SEED};
use crate::rivals::Asked;
use plain::{Book, Rng};
use siphonbard::Element;

const ENTRIES: usize = 40;
/// One fill in so many has an unlisted code, and the next one an unlisted flag.
const SELDOM: usize = 8;

/// Of a fill's fields: one with a code, and one with flags.
const CAPACITY: usize = 3;
const CONDITIONS: usize = 6;

pub fn fills() -> Workload {
    let book = books::listed();
    let mut fill = Fill { rng: Rng::new(SEED), entries: ENTRIES..=ENTRIES, data: 0..=0, text: FULL };
    let message = fill.message(&book, &book.templates[0]);
    let last = Asked::new(vec![(0, ENTRIES as u64 - 1)], Element::Field(CONDITIONS));
    let mut workload = Workload::new(&book, vec![last]);
    workload.add(&book, &message, 0);
    workload.add(&book, &with_unlisted(&book, message), 0);
    workload
}

fn with_unlisted(book: &Book, mut message: Vec<u8>) -> Vec<u8> {
    const BEFORE_ENTRIES: usize = 12 + 4;
    const UNLISTED_FLAG: u8 = 0x40;
    let root = &book.templates[0].block;
    let fill = &root.groups[0].block;
    for entry in 0..ENTRIES {
        let start = BEFORE_ENTRIES + usize::from(root.length) + entry * usize::from(fill.length);
        let octet = |field: usize| start + usize::from(fill.fields[field].offset);
        match entry % SELDOM {
            0 => message[octet(CAPACITY)] = b'?',
            1 => message[octet(CONDITIONS)] |= UNLISTED_FLAG,
            _ => (),
        }
    }
    message
}
