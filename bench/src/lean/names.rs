//! Which values a field's list has, by a mask, a table or a search.

use plain::lists::ENUMERATION;
use plain::NameList;

pub enum Names {
    /// A set, or no list: the bits that are not listed.
    Without(u64),
    /// An enumeration over one octet: a bit for each value.
    Octets([u64; 4]),
    /// An enumeration over two octets: the values, rising.
    Words(Box<[u16]>),
}

impl Names {
    /// For a field of so many octets.
    pub fn compiled(list: Option<&NameList>, octets: usize) -> Names {
        match list {
            None => Names::Without(0),
            Some(list) if list.kind != ENUMERATION => {
                Names::Without(!list.numbers.iter().fold(0, |bits, &bit| bits | 1 << bit))
            }
            Some(list) if octets == 1 => {
                let mut table = [0; 4];
                for &value in list.numbers.iter().filter(|&&value| value < 256) {
                    table[usize::from(value >> 6)] |= 1 << (value & 63);
                }
                Names::Octets(table)
            }
            Some(list) => Names::Words(list.numbers.clone().into()),
        }
    }

    /// Whether the list has the value, which the field's octets can hold.
    #[inline]
    pub fn have(&self, value: u64) -> bool {
        match self {
            Names::Without(bits) => value & bits == 0,
            Names::Octets(table) => table[(value >> 6 & 3) as usize] >> (value & 63) & 1 == 1,
            Names::Words(values) => values.binary_search(&(value as u16)).is_ok(),
        }
    }
}
