//! The nine types in figures: numbers at the borders of each, read and written, for a required and an optional field.

use super::books::{field, fields, of};
use super::writing::draft;
use super::{Case, Expected};
use plain::{refusal, Record};

struct Type {
    name: &'static str,
    code: u16,
    octets: usize,
    least: i128,
    greatest: i128,
    null: i128,
}

const fn row(code: u16, name: &'static str, octets: usize, least: i128, greatest: i128, null: i128) -> Type {
    Type { name, code, octets, least, greatest, null }
}

const TYPES: [Type; 9] = [
    row(0, "char", 1, 32, 126, 0),
    row(1, "int8", 1, -127, 127, -128),
    row(2, "uint8", 1, 0, 254, 255),
    row(3, "int16", 2, -32767, 32767, -32768),
    row(4, "uint16", 2, 0, 65534, 65535),
    row(5, "int32", 4, -2147483647, 2147483647, -2147483648),
    row(6, "uint32", 4, 0, 4294967294, 4294967295),
    row(7, "int64", 8, -9223372036854775807, 9223372036854775807, -9223372036854775808),
    row(8, "uint64", 8, 0, 18446744073709551614, 18446744073709551615),
];

impl Type {
    /// Around the type's own numbers, and around where any type's numbers turn negative or end.
    fn borders(&self) -> Vec<i128> {
        let ends = [1, 2, 4, 8].map(|octets| 1i128 << (8 * octets));
        let around = ends.into_iter().flat_map(|end| [-end, -end / 2, end / 2, end]);
        around.chain([self.least, self.greatest, self.null, 0]).flat_map(|x| [x - 1, x, x + 1]).collect()
    }

    fn in_range(&self, x: i128) -> bool {
        (self.least..=self.greatest).contains(&x)
    }

    /// Whether so many octets can say x, with a sign if the type has one.
    fn says(&self, octets: usize, x: i128) -> bool {
        let all = 1i128 << (8 * octets);
        if self.least < 0 {
            (-all / 2..all / 2).contains(&x)
        } else {
            (0..all).contains(&x)
        }
    }

    fn message(&self, x: i128) -> Vec<u8> {
        let header = [self.octets as u16, 1, 7, 0, 0, 0];
        header.iter().flat_map(|number| number.to_le_bytes()).chain(x.to_le_bytes()[..self.octets].to_vec()).collect()
    }

    fn read(&self, x: i128, presence: u16) -> Record {
        match x {
            x if self.in_range(x) => [0, x as u64, 0],
            x if x == self.null && presence == 1 => [1, 0, 0],
            x => [5, x as u64, 0],
        }
    }

    fn cases(&self, presence: u16) -> Vec<Case> {
        let Type { name, octets, .. } = *self;
        let book = of(fields(octets as u16, vec![field(self.code, 0, presence)]));
        let case = |message, expected| Case { name, book: book.clone(), message, expected };
        let read = self.borders().into_iter().filter(|&x| self.says(octets, x));
        let read = read.map(|x| case(self.message(x), Expected::Listing(Ok(vec![self.read(x, presence)]))));
        let written = self.borders().into_iter().filter(|&x| self.says(8, x)).map(|x| {
            let message = if self.in_range(x) { Ok(self.message(x)) } else { Err(refusal(52, 0)) };
            case(Vec::new(), Expected::Written(draft(&[[0, x as u64, 0]], &[]), 20, message))
        });
        read.chain(written).collect()
    }
}

pub fn cases() -> Vec<Case> {
    TYPES.iter().flat_map(|kind| [kind.cases(0), kind.cases(1)]).flatten().collect()
}
