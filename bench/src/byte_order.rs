//! The library alone, on one stream by either byte order.

use crate::sized::OPERATIONS;
use crate::timing::medians;
use crate::workloads::{self, Workload};
use crate::{contender, fewer, Operation};
use siphonbard::Book;

/// Nanoseconds per message for each operation, little-endian and big-endian.
pub fn time(rounds: usize) -> Vec<[f64; 2]> {
    let workloads = [workloads::stream(), workloads::big_stream()];
    let book = |workload: &Workload| Book::checked(&workload.book).expect("a book");
    let books = [book(&workloads[0]), book(&workloads[1])];
    let mut rooms = workloads[0].rooms();
    let time = |&operation: &Operation| {
        let one = |number: usize| contender(&books[number], &workloads[number], operation);
        let times = medians(&mut [one(0), one(1)], &mut rooms, fewer(rounds));
        [times[0], times[1]]
    };
    OPERATIONS.iter().map(time).collect()
}
