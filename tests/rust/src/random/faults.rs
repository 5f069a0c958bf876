//! Faults of a listing: records that their element cannot have or only just can, and records lost and gained.

use super::listings;
use super::lists;
use plain::{types::Type, NameList, Record, Rng};

/// Another kind, or a number where none is used.
pub fn shape(rng: &mut Rng, [first, second, third]: Record) -> Record {
    let (kind, wild) = (rng.below(8) as u64, rng.pick(&[1, 2, 1 << 32, 1 << 63, u64::MAX]));
    match rng.below(6) {
        0 => [kind, second, third],
        1 => [kind, 0, 0],
        2 => [first + (1 << 32), second, third],
        3 => [first, second, wild],
        4 => [1, wild, 0],
        _ => [1, 0, wild],
    }
}

/// A null, and numbers at the type's borders and just past them, or alike in the octets that the type has; numbers that
/// the list lacks; and kind 6.
pub fn number(rng: &mut Rng, kind: &Type, list: Option<&NameList>) -> Record {
    let modulus = 1 << (8 * kind.octets);
    let value = match rng.below(14) {
        0 | 1 => return [1, 0, 0],
        2 => kind.null,
        3 => kind.least - 1,
        4 => kind.greatest + 1,
        5 => kind.least + modulus,
        6 => kind.greatest - modulus,
        7 => kind.greatest,
        8 | 9 => lists::beside(rng, kind, list),
        10 | 11 => listings::number(rng, kind),
        12 => return [6, listings::number(rng, kind) as u64, 0],
        _ => rng.draw().into(),
    };
    [0, value as u64, 0]
}

/// Octets that end at the pool's end or past it, by a little or by nearly 2^64, or that are more or fewer; and null.
pub fn octets(rng: &mut Rng, [_, start, length]: Record, pool: u64) -> Record {
    let few = rng.below(3) as u64;
    match rng.below(11) {
        0 => [2, start, length + 1 + few],
        1 => [2, start, length.saturating_sub(1 + few)],
        2 => [2, pool.saturating_sub(length), length],
        3 => [2, pool.saturating_sub(length) + 1 + few, length],
        4 => [2, pool + few, 0],
        5 => [2, length.wrapping_neg().wrapping_add(few), length],
        6 => [2, u64::MAX - few, length],
        7 => [2, start, start.wrapping_neg().wrapping_add(few)],
        8 => [2, 1 << 63, (1 << 63) + few],
        9 => [1, 0, 0],
        _ => [2, start, 65533 + few],
    }
}

/// An entry more or less, and too many.
pub fn group(rng: &mut Rng, [_, entries, _]: Record) -> Record {
    let entries = match rng.below(7) {
        0 => entries + 1,
        1 => entries.saturating_sub(1),
        2 => 65534,
        3 => 65535,
        4 => 65536 + entries,
        5 => (1 << 32) + entries,
        _ => u64::MAX - entries,
    };
    [4, entries, 0]
}

/// Records and parts of records lost, gained, exchanged and altered.
pub fn numbers(rng: &mut Rng, listing: &mut Vec<u64>) {
    let records = listing.len() / 3;
    let (one, other) = (3 * rng.below(records.max(1)), 3 * rng.below(records.max(1)));
    match rng.below(8) {
        0 | 1 => listing.truncate(rng.below(listing.len() + 1)),
        2 => listing.extend(vec![0; rng.between(1, 4)]),
        3 => listing.extend([rng.below(7) as u64, 0, 0]),
        4 => drop(listing.splice(one..one, [0, rng.below(100) as u64, 0])),
        _ if records == 0 => listing.push(2),
        5 => drop(listing.drain(one..one + 3)),
        6 => (0..3).for_each(|number| listing.swap(one + number, other + number)),
        _ => listing[one + rng.below(3)] = rng.pick(&[0, 1, 2, 4, 255, 65535, 1 << 31, u64::MAX]),
    }
}
