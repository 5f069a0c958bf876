//! Texts of every length that a field has room for, read and written, and with NUL at every position.

use super::books::{field, fields, of, OCTET};
use super::messages::of_block;
use super::text_writing::case;
use super::texts::{alone, text, LONGEST, OPTIONAL, REQUIRED};
use super::writing::draft;
use super::{Case, Expected};
use plain::{refusal, Field, Place, Record};

/// Around eight octets and multiples of them.
const LENGTHS: [u16; 12] = [2, 3, 7, 8, 9, 15, 16, 17, 31, 33, 64, 65];

/// An octet of a text, and an octet after its NUL.
const OCTETS: [(u8, u8); 8] = [(1, 0), (1, 1), (b'A', 0), (b'A', b'Z'), (127, 128), (128, 127), (255, 0), (255, 255)];

/// A text that is one octet over and over, between two numbers that are this octet, too. Behind its NUL is the tail's,
/// over and over.
struct Between {
    length: u16,
    presence: u16,
    octet: u8,
    tail: u8,
}

impl Between {
    fn offset(&self) -> u16 {
        1 + self.length % 5
    }

    fn book(&self) -> Vec<u8> {
        let (start, end) = (self.offset(), self.offset() + self.length);
        let text = Field { offset: start, ..text(self.length, self.presence) };
        of(fields(end + 1, vec![field(OCTET, 0, 1), text, field(OCTET, end, 1)]))
    }

    /// With so many octets before the first NUL.
    fn message(&self, count: u16) -> Vec<u8> {
        let mut block = vec![self.octet; usize::from(self.offset() + self.length + 1)];
        let text = &mut block[usize::from(self.offset())..][..usize::from(self.length)];
        if let [nul, tail @ ..] = &mut text[usize::from(count)..] {
            *nul = 0;
            tail.fill(self.tail);
        }
        of_block(&block, 0)
    }

    fn record(&self, count: u16) -> Record {
        match (count, self.presence) {
            (0, OPTIONAL) => [1, 0, 0],
            _ => [2, 12 + u64::from(self.offset()), count.into()],
        }
    }

    fn listing(&self, count: u16) -> Expected {
        let beside = if self.octet == 255 { [1, 0, 0] } else { [0, self.octet.into(), 0] };
        Expected::Listing(Ok(vec![beside, self.record(count), beside]))
    }

    fn place(&self, count: u16) -> Expected {
        Expected::Place(Place { steps: Vec::new(), kind: 0, element: 1 }, Ok(self.record(count)))
    }

    /// Of every length that the text may have, with what is expected of it.
    fn cases<'a>(&'a self, expected: impl Fn(u16) -> Expected + 'a) -> impl Iterator<Item = Case> + 'a {
        let book = self.book();
        let case = move |(count, book)| Case {
            name: "a text of some length",
            book,
            message: self.message(count),
            expected: expected(count),
        };
        (0..=self.length).zip(std::iter::repeat(book)).map(case)
    }
}

/// With NUL at every position and at none. Those of the longest field are asked for by their place.
pub fn read() -> Vec<Case> {
    let mut cases = Vec::new();
    for presence in [REQUIRED, OPTIONAL] {
        for length in LENGTHS {
            for (octet, tail) in OCTETS {
                let text = Between { length, presence, octet, tail };
                cases.extend(text.cases(|count| text.listing(count)));
            }
        }
        let text = Between { length: LONGEST, presence, octet: b'A', tail: b'Z' };
        cases.extend(text.cases(|count| text.place(count)));
    }
    cases
}

/// Texts of every length that a field takes and of the next, from between two NULs of the pool; and with NUL at every
/// position.
pub fn written() -> Vec<Case> {
    let fields = LENGTHS.iter().chain(&[LONGEST]).flat_map(|&length| [text(length, REQUIRED), text(length, OPTIONAL)]);
    fields
        .flat_map(|field| (0..=field.length + 1).map(move |count| of_count(field, count)).chain(with_nuls(field)))
        .collect()
}

fn of_count(field: Field, count: u16) -> Case {
    let text = vec![b'~'; count.into()];
    let fits = count <= field.length && (count > 0 || field.presence == REQUIRED);
    let mut block = text.clone();
    block.resize(field.length.into(), 0);
    let written = if fits { Ok(of_block(&block, 0)) } else { Err(refusal(53, 0)) };
    let pool = [&[0], &text[..], &[0]].concat();
    case("a text of some length", alone(field), draft(&[[2, 1, count.into()]], &pool), written)
}

fn with_nuls(field: Field) -> impl Iterator<Item = Case> {
    (0..field.length).map(move |nul| {
        let mut pool = vec![b'~'; field.length.into()];
        pool[usize::from(nul)] = 0;
        let draft = draft(&[[2, 0, field.length.into()]], &pool);
        case("a text with a NUL", alone(field), draft, Err(refusal(53, 0)))
    })
}
