//! The library alone, on one message by books of different size.

use crate::timing::medians;
use crate::workloads::{Entry, Workload};
use crate::{agree, contender, lean, Operation};
use siphonbard::Book;

/// The operations that are shown.
pub const OPERATIONS: [Operation; 4] = [Operation::Check, Operation::List, Operation::Place, Operation::Write];

/// A workload by one of its books, and the library's nanoseconds per octet of the message for each operation.
pub struct Measured {
    pub name: &'static str,
    pub what: &'static str,
    /// Of the message.
    pub length: usize,
    /// Of the book.
    pub octets: usize,
    pub numbers: usize,
    pub times: Vec<f64>,
}

/// Times both of a pair, once the rivals agree on each.
pub fn time(pair: &[Entry; 2], rounds: usize) -> [Measured; 2] {
    let workloads = pair.map(|(_, _, make)| make());
    let books = [book(&workloads[0]), book(&workloads[1])];
    let mut rooms = workloads[0].rooms();
    let length = workloads[0].counts().octets;
    let columns = OPERATIONS.map(|operation| {
        let one = |number: usize| contender(&books[number], &workloads[number], operation);
        medians(&mut [one(0), one(1)], &mut rooms, rounds)
    });
    [0, 1].map(|number| Measured {
        name: pair[number].0,
        what: pair[number].1,
        length,
        octets: workloads[number].book.len(),
        numbers: books[number].numbers().len(),
        times: columns.iter().map(|column| column[number] / length as f64).collect(),
    })
}

/// The workload's book, on whose messages the rivals agree.
fn book(workload: &Workload) -> Book {
    let book = Book::checked(&workload.book).expect("a book");
    let plain = plain::Book::read(&workload.book).expect("a book");
    agree::agree(&book, &plain, workload);
    match plain.is_counted() {
        false => agree::agree(&book, &lean::Book::<false, false>::compiled(&plain), workload),
        true => agree::agree(&book, &lean::Book::<false, true>::compiled(&plain), workload),
    }
    book
}
