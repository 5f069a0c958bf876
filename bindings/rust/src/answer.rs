/// What stands at one place of a message.
///
/// An element that is younger than the message is `Absent`, even where its block has octets there. A code that the
/// field's list lacks is `Unlisted`, whatever it is: it is not hidden, and no listed one.
///
/// ```
/// use siphonbard::{Answer, Book, Element};
///
/// // One template: a side, which is a char. One list, 54, which its last word names: '1' to buy and '2' to sell.
/// let words: [u16; 27] =
///     [7, 0, 1, 27, 1, 0, 2, 1, 13, 11, 54, 24, 3, 1, 1, 0, 0, 54, 0, 1, 0, 0, 0, 55, 0, b'1' as u16, b'2' as u16];
/// let octets: Vec<u8> = words.iter().flat_map(|word| word.to_le_bytes()).collect();
/// let book = Book::checked(&octets)?;
///
/// let side = |code| book.place(&[1, 0, 1, 0, 7, 0, 0, 0, 0, 0, 0, 0, code], &[], Element::Field(0));
/// assert_eq!(side(b'1')?, Answer::Number(49));
/// assert_eq!(side(b'5')?, Answer::Unlisted(53));
/// # Ok::<(), siphonbard::Refusal>(())
/// ```
#[derive(Clone, Copy, Debug, PartialEq, Eq, Hash)]
pub enum Answer {
    /// A value in its type's range, and in the field's list if it has one. Negative ones are 2^64 + value: see
    /// [`Answer::signed`].
    Number(u64),
    /// An optional field that holds its type's null, or a text that starts with NUL.
    Null,
    /// An array or a data: where its octets stand in the message. Those of a char array, which is text, end before its
    /// first NUL: see [`Answer::text`].
    Octets {
        /// Counted from the message's first octet.
        start: usize,
        /// How many there are.
        len: usize,
    },
    /// The message's version is older than the element.
    Absent,
    /// A group, with the number of its entries.
    Group(u64),
    /// A required number that is null, or a char outside 32 to 126. The number is as for `Number`. A text has no range.
    OutOfRange(u64),
    /// A value in its type's range that the field's list lacks, or that has a bit 1 which the list lacks. The number is
    /// as for `Number`.
    Unlisted(u64),
}

/// The kinds of records: the first of a record's three numbers.
impl Answer {
    /// The kind of a `Number`. The record's second number is its value.
    pub const NUMBER: u64 = 0;
    /// The kind of `Null`.
    pub const NULL: u64 = 1;
    /// The kind of `Octets`. The record's second number is their start, its third how many they are.
    pub const OCTETS: u64 = 2;
    /// The kind of `Absent`.
    pub const ABSENT: u64 = 3;
    /// The kind of a `Group`. The record's second number is its number of entries.
    pub const GROUP: u64 = 4;
    /// The kind of an `OutOfRange`. The record's second number is its value.
    pub const OUT_OF_RANGE: u64 = 5;
    /// The kind of an `Unlisted`. The record's second number is its value.
    pub const UNLISTED: u64 = 6;
}

impl Answer {
    /// The answer that a record of a listing stands for; nothing if its first number is no kind.
    pub fn from_record(record: [u64; 3]) -> Option<Answer> {
        Some(match record[0] {
            Answer::NUMBER => Answer::Number(record[1]),
            Answer::NULL => Answer::Null,
            Answer::OCTETS => Answer::Octets { start: record[1] as usize, len: record[2] as usize },
            Answer::ABSENT => Answer::Absent,
            Answer::GROUP => Answer::Group(record[1]),
            Answer::OUT_OF_RANGE => Answer::OutOfRange(record[1]),
            Answer::UNLISTED => Answer::Unlisted(record[1]),
            _ => return None,
        })
    }

    /// The record of a listing that stands for the answer.
    pub fn record(&self) -> [u64; 3] {
        match *self {
            Answer::Number(value) => [Answer::NUMBER, value, 0],
            Answer::Null => [Answer::NULL, 0, 0],
            Answer::Octets { start, len } => [Answer::OCTETS, start as u64, len as u64],
            Answer::Absent => [Answer::ABSENT, 0, 0],
            Answer::Group(entries) => [Answer::GROUP, entries, 0],
            Answer::OutOfRange(value) => [Answer::OUT_OF_RANGE, value, 0],
            Answer::Unlisted(value) => [Answer::UNLISTED, value, 0],
        }
    }

    /// The value of a `Number` of an unsigned type or a char. An `Unlisted` is none, as an `OutOfRange` is none.
    pub fn unsigned(&self) -> Option<u64> {
        match *self {
            Answer::Number(value) => Some(value),
            _ => None,
        }
    }

    /// The value of a `Number` of a signed type.
    pub fn signed(&self) -> Option<i64> {
        self.unsigned().map(|value| value as i64)
    }

    /// The octets of an `Octets` in the message that it answers for.
    pub fn octets<'m>(&self, message: &'m [u8]) -> Option<&'m [u8]> {
        match *self {
            Answer::Octets { start, len } => message.get(start..start.checked_add(len)?),
            _ => None,
        }
    }

    /// The octets of an `Octets` in the message that it answers for, where all of them are ASCII.
    ///
    /// ```
    /// use siphonbard::{Answer, Book, Element};
    ///
    /// // One template: a symbol, a required text in six octets, and another, an optional one in four.
    /// let words: [u16; 28] =
    ///     [7, 0, 1, 28, 0, 0, 2, 1, 10, 18, 10, 2, 0, 0, 55, 0, 6, 0, 0, 0, 0, 311, 0, 4, 6, 1, 0, 0];
    /// let octets: Vec<u8> = words.iter().flat_map(|word| word.to_le_bytes()).collect();
    /// let book = Book::checked(&octets)?;
    ///
    /// let message = b"\x0a\0\x01\0\x07\0\0\0\0\0\0\0MEAL\0\0\0\0\0\0";
    /// let symbol = book.place(message, &[], Element::Field(0))?;
    /// assert_eq!(symbol, Answer::Octets { start: 12, len: 4 });
    /// assert_eq!(symbol.text(message), Some("MEAL"));
    /// assert_eq!(book.place(message, &[], Element::Field(1))?, Answer::Null);
    /// # Ok::<(), siphonbard::Refusal>(())
    /// ```
    pub fn text<'m>(&self, message: &'m [u8]) -> Option<&'m str> {
        let octets = self.octets(message).filter(|octets| octets.is_ascii())?;
        std::str::from_utf8(octets).ok()
    }

    /// How many entries a `Group` has.
    pub fn entries(&self) -> Option<u64> {
        match *self {
            Answer::Group(entries) => Some(entries),
            _ => None,
        }
    }
}

/// The answers that a listing stands for, record by record. Ends early at a record that is none.
pub fn answers(listing: &[u64]) -> impl Iterator<Item = Answer> + '_ {
    listing.chunks_exact(3).map_while(|record| Answer::from_record([record[0], record[1], record[2]]))
}

/// An element of a block, by its number: they count from 0 within their kind.
#[derive(Clone, Copy, Debug, PartialEq, Eq, Hash)]
pub enum Element {
    /// One of the block's fields.
    Field(usize),
    /// One of its groups.
    Group(usize),
    /// One of its data.
    Data(usize),
}

/// What a place asks for, as the exports take it. These are no kinds of records.
impl Element {
    /// A field is asked for.
    pub const FIELD: u64 = 0;
    /// A group is asked for.
    pub const GROUP: u64 = 1;
    /// A data is asked for.
    pub const DATA: u64 = 2;

    pub(crate) fn numbers(self) -> (u64, u64) {
        match self {
            Element::Field(number) => (Element::FIELD, number as u64),
            Element::Group(number) => (Element::GROUP, number as u64),
            Element::Data(number) => (Element::DATA, number as u64),
        }
    }
}

/// A step down to a block: into an entry of a group, both counted from 0.
#[repr(C)]
#[derive(Clone, Copy, Debug, PartialEq, Eq, Hash)]
pub struct Step {
    /// The group's number in its block.
    pub group: u64,
    /// The entry's number in the group.
    pub entry: u64,
}
