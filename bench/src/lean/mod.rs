//! A reader and a writer in safe Rust, made for speed under the library's own contract. The book is compiled once into
//! flat tables; no call allocates but `list_all`, what it gives; one pass checks and counts, another stores, so that a
//! refused call alters nothing. There is a code for each byte order and each number of numbers that a dimension has, so
//! that none asks for them.

mod book;
mod check;
mod list;
mod names;
mod numbers;
mod order;
mod place;
mod write;

pub use book::Book;

/// A number and a place.
#[derive(Clone, Copy, Debug, PartialEq, Eq)]
pub struct Refusal {
    pub number: u32,
    pub place: u32,
}

#[cold]
fn refusal(number: u32, place: usize) -> Refusal {
    Refusal { number, place: place as u32 }
}

/// One line of a listing.
pub type Record = [u64; 3];

const NUMBER: u64 = 0;
const NULL: u64 = 1;
const OCTETS: u64 = 2;
const ABSENT: u64 = 3;
const GROUP: u64 = 4;
const OUT_OF_RANGE: u64 = 5;
const UNLISTED: u64 = 6;

const NULL16: u16 = 65535;
const LONGEST: usize = 65535;
const HEADER: usize = 12;
/// Of the deepest group.
const DEPTH: usize = 4;

/// Octets of a dimension.
const fn dimension_octets(counted: bool) -> usize {
    if counted {
        8
    } else {
        4
    }
}
