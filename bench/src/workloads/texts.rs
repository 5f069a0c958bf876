//! Short texts in longer fields, and texts as long as they may be.

use super::{books, Fill, Workload, FULL, SEED};
use crate::rivals::Asked;
use plain::{Book, Rng};
use siphonbard::Element;
use std::ops::RangeInclusive;

/// So many that symbols of every length come, and some that are null.
const ORDERS: usize = 16;
const SYMBOL: RangeInclusive<usize> = 3..=6;

const NEARLY_FULL: RangeInclusive<usize> = 1000..=1023;

/// Of an order's fields: the symbol that may be null. Of the long texts: the last.
const UNDERLYING: usize = 2;
const LAST: usize = 4;

pub fn symbols() -> Workload {
    filled(&books::symbols(), Element::Field(UNDERLYING), &[SYMBOL; ORDERS])
}

pub fn long() -> Workload {
    filled(&books::texts(), Element::Field(LAST), &[FULL, NEARLY_FULL])
}

/// Messages of the book's only template, each with texts of so many characters.
fn filled(book: &Book, asked: Element, texts: &[RangeInclusive<usize>]) -> Workload {
    let mut workload = Workload::new(book, vec![Asked::new(vec![], asked)]);
    let mut fill = Fill { rng: Rng::new(SEED), entries: 0..=0, data: 0..=0, text: FULL };
    for text in texts {
        fill.text = text.clone();
        workload.add(book, &fill.message(book, &book.templates[0]), 0);
    }
    workload
}
