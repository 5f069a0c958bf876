//! Listings and prepared books in rooms of any size: what is to be answered, and what is to be left in the room.

use crate::raw;
use crate::report::same;
use plain::{refusal, Record, Refusal};
use std::ops::RangeInclusive;

/// What a message is to be listed as.
pub type Listing = Result<Vec<Record>, Refusal>;

/// What rooms are full of before the call.
const PATTERN: u64 = 0x5bd1_e995_0b0e_c0de;
/// The largest room has so many numbers more than it needs.
const MORE: usize = 4;

/// The sizes from none to enough, and some more.
pub fn every(listing: &Listing) -> RangeInclusive<usize> {
    0..=3 * listing.as_ref().map_or(0, Vec::len) + MORE
}

/// Whether the call answers as it is to, and leaves a room of so many numbers as it is to. Below three numbers per
/// record the place of its refusal is the number of records, and the room is as it was.
pub fn listed(
    listing: &Listing,
    len: usize,
    call: impl FnOnce(&mut [u64]) -> Result<u64, Refusal>,
) -> Result<(), String> {
    let numbers = listing.as_ref().map(|records| records.concat()).map_err(|refused| *refused);
    stored("list", numbers.as_deref().map_err(|refused| *refused), 3, len, call)
}

/// Whether the book is prepared to these numbers or refused so, and a room of so many is left as it is to be. Where the
/// room is smaller the place of the refusal is how many they are, and the room is as it was.
pub fn prepared(book: &[u8], numbers: Result<&[u64], Refusal>, len: usize) -> Result<(), String> {
    stored("prepare", numbers, 1, len, |room| raw::counted(raw::prepare(book, room)))
}

/// What is to be stored is counted by so many numbers each.
fn stored(
    name: &str,
    numbers: Result<&[u64], Refusal>,
    each: usize,
    len: usize,
    call: impl FnOnce(&mut [u64]) -> Result<u64, Refusal>,
) -> Result<(), String> {
    let (mut room, mut left) = (vec![PATTERN; len], vec![PATTERN; len]);
    let answer = match numbers {
        Ok(numbers) if len < numbers.len() => Err(refusal(40, numbers.len() / each)),
        Ok(numbers) => {
            left[..numbers.len()].copy_from_slice(numbers);
            Ok((numbers.len() / each) as u64)
        }
        Err(refused) => Err(refused),
    };
    let came = call(&mut room);
    same(name, (came, room), (answer, left)).map_err(|failure| format!("room of {len}, {failure}"))
}
