//! The nine types: octets, range and null.

use crate::ByteOrder;

pub struct Type {
    pub octets: usize,
    pub signed: bool,
    pub least: i128,
    pub greatest: i128,
    pub null: i128,
}

const fn signed(octets: usize) -> Type {
    let half = 1 << (8 * octets - 1);
    Type { octets, signed: true, least: -half + 1, greatest: half - 1, null: -half }
}

const fn unsigned(octets: usize) -> Type {
    let all = (1 << (8 * octets)) - 1;
    Type { octets, signed: false, least: 0, greatest: all - 1, null: all }
}

const CHAR: Type = Type { octets: 1, signed: false, least: 32, greatest: 126, null: 0 };

pub const TYPES: [Type; 9] =
    [CHAR, signed(1), unsigned(1), signed(2), unsigned(2), signed(4), unsigned(4), signed(8), unsigned(8)];

impl Type {
    pub fn holds(&self, value: i128) -> bool {
        self.least <= value && value <= self.greatest
    }

    /// The value that the octets stand for.
    pub fn value(&self, octets: &[u8], order: ByteOrder) -> i128 {
        let value = i128::from(order.number(octets));
        let modulus = 1 << (8 * self.octets);
        if self.signed && value >= modulus / 2 {
            value - modulus
        } else {
            value
        }
    }

    /// The octets that stand for the value.
    pub fn octets_of(&self, value: i128, order: ByteOrder) -> Vec<u8> {
        order.octets(value as u64, self.octets)
    }
}
