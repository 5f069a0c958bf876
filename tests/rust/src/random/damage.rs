//! Damage: numbers and octets altered, cut off and added.

use crate::wire;
use plain::{Book, ByteOrder, Rng};

/// One to three faults in a message of this book. Its header, its dimensions and its 16-bit numbers are hit more often
/// than chance would.
pub fn message(rng: &mut Rng, book: &Book, mut octets: Vec<u8>) -> Vec<u8> {
    let order = book.byte_order();
    for _ in 0..rng.pick(&[1, 1, 2, 3]) {
        match rng.below(14) {
            0..=2 => alter_number(rng, order, &mut octets, 12),
            3..=6 => alter_number(rng, order, &mut octets, usize::MAX),
            7 => alter_octet(rng, &mut octets),
            8 | 9 => octets.truncate(rng.below(octets.len() + 1)),
            10 | 11 => alter_dimension(rng, book, &mut octets),
            _ => add(rng, &mut octets),
        }
    }
    if rng.below(2000) == 0 {
        octets.resize(rng.pick(&[65535, 65536, 65537]), 0);
    }
    octets
}

/// One to three faults in a book: mostly words, for its octets are words.
pub fn book(rng: &mut Rng, mut octets: Vec<u8>) -> Vec<u8> {
    for _ in 0..rng.pick(&[1, 1, 1, 2, 3]) {
        match rng.below(20) {
            0..=15 => alter_word(rng, &mut octets),
            16 => alter_octet(rng, &mut octets),
            17 => octets.truncate(rng.below(octets.len() + 1)),
            18 => add(rng, &mut octets),
            _ => resize(rng, &mut octets),
        }
    }
    octets
}

/// A longer or shorter book whose word count says so.
fn resize(rng: &mut Rng, octets: &mut Vec<u8>) {
    let words = (octets.len() / 2 + rng.below(5)).saturating_sub(rng.below(5));
    octets.resize(2 * words, 0);
    if words >= 4 {
        octets[6..8].copy_from_slice(&(words as u16).to_le_bytes());
    }
}

fn alter_octet(rng: &mut Rng, octets: &mut [u8]) {
    if !octets.is_empty() {
        let at = rng.below(octets.len());
        octets[at] = rng.octet();
    }
}

/// Alters a word of a book.
fn alter_word(rng: &mut Rng, octets: &mut [u8]) {
    if octets.len() >= 2 {
        let at = 2 * rng.below(octets.len() / 2);
        put_number(rng, ByteOrder::Little, &mut octets[at..at + 2]);
    }
}

/// Alters the number at any offset, below `bound`.
fn alter_number(rng: &mut Rng, order: ByteOrder, octets: &mut [u8], bound: usize) {
    if octets.len() >= 2 {
        let at = rng.below((octets.len() - 1).min(bound));
        put_number(rng, order, &mut octets[at..at + 2]);
    }
}

/// Alters a number of a dimension.
fn alter_dimension(rng: &mut Rng, book: &Book, octets: &mut [u8]) {
    let dimensions = wire::numbers(book, octets).dimensions;
    if !dimensions.is_empty() {
        let at = rng.pick(&dimensions) + 2 * rng.below(book.dimension.into());
        if let Some(number) = octets.get_mut(at..at + 2) {
            put_number(rng, book.byte_order(), number);
        }
    }
}

fn put_number(rng: &mut Rng, order: ByteOrder, octets: &mut [u8]) {
    let old = order.number16(octets, 0);
    let new = match rng.below(8) {
        0 | 1 => 65535,
        2 => 65534,
        3 => old.wrapping_add(1),
        4 => old.wrapping_sub(1),
        5 => 0,
        6 => rng.word(0, 20),
        _ => rng.draw() as u16,
    };
    octets.copy_from_slice(&order.octets16(new));
}

fn add(rng: &mut Rng, octets: &mut Vec<u8>) {
    let count = rng.between(1, 4);
    let more = if rng.chance(50) { vec![0; count] } else { rng.octets(count) };
    octets.extend(more);
}
