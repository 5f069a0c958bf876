//! Name lists: refusal 4 of a list, what it can stand over, and which values it has.

use crate::{Book, Field};

/// An enumeration of values or a set of bits. A field names it by its id plus one.
#[derive(Clone, Debug, PartialEq, Eq)]
pub struct NameList {
    pub id: u16,
    pub kind: u16,
    /// Values of an enumeration, or bit numbers of a set.
    pub numbers: Vec<u16>,
}

pub const ENUMERATION: u16 = 0;
pub const SET: u16 = 1;

impl NameList {
    /// The list that the words of a body are: a kind, and 1 to 64 rising numbers.
    pub(crate) fn read(id: u16, words: &[u16]) -> Option<NameList> {
        let (&kind, numbers) = words.split_first()?;
        let rise = numbers.windows(2).all(|pair| pair[0] < pair[1]);
        let holds = (kind == ENUMERATION || kind == SET) && (1..=64).contains(&numbers.len()) && rise;
        holds.then(|| NameList { id, kind, numbers: numbers.to_vec() })
    }

    pub(crate) fn words(&self) -> Vec<u16> {
        let mut words = vec![self.kind];
        words.extend(&self.numbers);
        words
    }

    /// Values stand over a char, a uint8 or a uint16, bits over an unsigned type that has them; neither over an array.
    pub fn fits(&self, field: &Field) -> bool {
        let bits = 8 * field.octets();
        let over_type = match self.kind {
            ENUMERATION => [0, 2, 4].contains(&field.kind),
            _ => [2, 4, 6, 8].contains(&field.kind) && self.numbers.iter().all(|&bit| usize::from(bit) < bits),
        };
        over_type && !field.is_array()
    }

    /// Whether the value, which is in range, is one of the numbers, or sets only bits that are.
    pub fn has(&self, value: i128) -> bool {
        if self.kind == ENUMERATION {
            return self.numbers.iter().any(|&number| i128::from(number) == value);
        }
        (0..64).all(|bit| value >> bit & 1 == 0 || self.numbers.contains(&bit))
    }
}

impl Book {
    /// The list that the field names: none where its word is 0, or where the book lacks it.
    pub fn list_of(&self, field: &Field) -> Option<&NameList> {
        self.lists.iter().find(|list| u32::from(list.id) + 1 == u32::from(field.list))
    }

    /// Whether the field's list has the value, which is in range. Without a list every value is as if listed.
    pub fn is_listed(&self, field: &Field, value: i128) -> bool {
        self.list_of(field).map_or(true, |list| list.has(value))
    }
}
