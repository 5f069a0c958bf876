//! What preparing a book costs, beside a check of a message by the prepared book and by the book's octets.

use crate::timing::{medians, Contender, Rooms};
use crate::workloads::Entry;
use crate::{contender, fewer, Operation};
use siphonbard::ffi::{siphonbard_prepare, Counted, PREPARED_MOST};
use siphonbard::Book;

/// A workload's book, and nanoseconds: those of preparing it, and those per message of a check by its octets and by its
/// numbers.
pub struct Prepared {
    pub name: &'static str,
    pub octets: usize,
    pub numbers: usize,
    pub prepare: f64,
    pub by_octets: f64,
    pub by_numbers: f64,
}

impl Prepared {
    /// The fewest messages for which preparing once and checking by the numbers takes less than checking by the octets.
    pub fn pays_from(&self) -> Option<u64> {
        let spared = self.by_octets - self.by_numbers;
        (spared > 0.0).then(|| (self.prepare / spared) as u64 + 1)
    }
}

pub fn time(&(name, _, make): &Entry, rounds: usize) -> Prepared {
    let (workload, mut rooms) = (&make(), Rooms { numbers: vec![0; PREPARED_MOST], octets: Vec::new() });
    let octets = &workload.book[..];
    let book = Book::checked(octets).expect("a book");
    let rounds = if workload.is_stream() { fewer(rounds) } else { rounds };
    let mut contenders = [
        Contender::new(vec![octets], |octets, rooms| prepare(octets, &mut rooms.numbers)),
        Contender::new(workload.samples(), |sample, _| siphonbard::check(octets, sample.octets)),
        contender(&book, workload, Operation::Check),
    ];
    let times = medians(&mut contenders, &mut rooms, rounds);
    let (prepare, by_octets, by_numbers) = (times[0], times[1], times[2]);
    Prepared { name, octets: octets.len(), numbers: book.numbers().len(), prepare, by_octets, by_numbers }
}

/// The export itself: room for it is made once.
fn prepare(book: &[u8], room: &mut [u64]) -> Counted {
    // SAFETY: lends two slices, and the room is borrowed mutably.
    unsafe { siphonbard_prepare(book.as_ptr(), book.len(), room.as_mut_ptr(), room.len()) }
}
