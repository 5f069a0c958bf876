//! A reader and a writer in plain Rust, made from the rules' words alone and from nothing of the library: what the
//! library is compared with, in tests and benchmark. Whatever is clear stands before what is fast. The random numbers
//! that both draw from are here too.

mod answers;
mod as_written;
mod book;
pub mod byte_order;
pub mod dimension;
pub mod extension;
pub mod lists;
pub mod message;
mod rng;
mod rules;
pub mod types;
pub mod writer;

pub use answers::Place;
pub use book::{Block, Book, Data, Field, Group, Template};
pub use byte_order::ByteOrder;
pub use lists::NameList;
pub use message::Message;
pub use rng::Rng;
pub use writer::Draft;

/// A number and a place.
#[derive(Clone, Copy, Debug, PartialEq, Eq)]
pub struct Refusal {
    pub number: u64,
    pub place: u64,
}

pub fn refusal(number: u64, place: usize) -> Refusal {
    Refusal { number, place: place as u64 }
}

/// One line of a listing.
pub type Record = [u64; 3];

/// No id, version, length or count on the wire may be this.
pub const NULL16: u16 = 65535;

/// The longest message.
pub const LONGEST: usize = 65535;

/// The word of a book at `at`, least significant octet first.
pub fn word(octets: &[u8], at: usize) -> u16 {
    u16::from_le_bytes([octets[at], octets[at + 1]])
}

/// How many octets come before the first NUL; all of them where there is none.
pub fn text_length(octets: &[u8]) -> usize {
    octets.iter().position(|&octet| octet == 0).unwrap_or(octets.len())
}
