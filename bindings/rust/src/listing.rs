use crate::Answer;

/// A listing to write a message from, made record by record, with the pool that holds its octets.
///
/// A block's records come in this order: one for each of its fields; for each of its groups [`Listing::group`] and
/// then the block of each entry; one for each of its data. Every element of the book's template has one, whatever its
/// since. Nothing is judged here: the writing does that.
///
/// ```
/// use siphonbard::{Book, Element, Listing};
///
/// # let words: [u16; 43] = [
/// #     7, 0, 1, 43, 0, 0, 2, 1, 10, 33, 8, 2, 1, 1, 38, 6, 1, 0, 0, 0, 0, 44, 3, 1, 4, 1, 0, 0, 58, 0, 453, 0, 2, 1,
/// #     0, 0, 452, 2, 1, 0, 0, 0, 0,
/// # ];
/// # let octets: Vec<u8> = words.iter().flat_map(|word| word.to_le_bytes()).collect();
/// // The book of the crate's page: a uint32, an optional int16, a group with a uint8, and a data.
/// let book = Book::checked(&octets)?;
///
/// let mut listing = Listing::new();
/// listing.number(1000).signed(-5);
/// listing.group(2).number(1).number(3);
/// listing.octets(b"ab");
/// let message = book.write_listing(1, &listing)?;
///
/// // The message of the crate's page.
/// let expected = b"\x08\0\x01\0\x07\0\0\0\x01\0\x01\0\xe8\x03\0\0\xfb\xff\0\0\x02\0\x02\0\x01\0\x03\0\x02\0ab";
/// assert_eq!(message, expected);
/// assert_eq!(book.place(&message, &[], Element::Field(1))?.signed(), Some(-5));
///
/// // Read and written back.
/// let mut again = Listing::new();
/// for answer in book.list_all(&message)? {
///     again.record(answer, &message);
/// }
/// assert_eq!(again, listing);
/// # Ok::<(), siphonbard::Refusal>(())
/// ```
#[derive(Clone, Debug, Default, PartialEq, Eq)]
pub struct Listing {
    numbers: Vec<u64>,
    pool: Vec<u8>,
}

impl Listing {
    /// A listing without records: that of a template without elements.
    pub fn new() -> Listing {
        Listing::default()
    }

    /// A value of an unsigned field or a char. If the field has a list, it is one that the list has.
    pub fn number(&mut self, value: u64) -> &mut Listing {
        self.push(Answer::Number(value).record())
    }

    /// A value of a signed field.
    pub fn signed(&mut self, value: i64) -> &mut Listing {
        self.number(value as u64)
    }

    /// The null of an optional field, also of a text.
    pub fn null(&mut self) -> &mut Listing {
        self.push(Answer::Null.record())
    }

    /// The octets of a uint8 array, as many as the field has; of a text, which has no NUL and may be shorter than its
    /// field; or of a data. They are copied into the pool. An optional text without octets is [`Listing::null`].
    pub fn octets(&mut self, octets: &[u8]) -> &mut Listing {
        let start = self.pool.len();
        self.pool.extend_from_slice(octets);
        self.push(Answer::Octets { start, len: octets.len() }.record())
    }

    /// A group. The blocks of so many entries are next.
    pub fn group(&mut self, entries: u64) -> &mut Listing {
        self.push(Answer::Group(entries).record())
    }

    /// What was answered of a message that was read, its octets copied. What cannot be written is refused by the
    /// writing: an absent element and a number that is out of range or unlisted by 51, octets that the message does not
    /// have by 53.
    pub fn record(&mut self, answer: Answer, message: &[u8]) -> &mut Listing {
        match (answer, answer.octets(message)) {
            (_, Some(octets)) => self.octets(octets),
            // No pool is so long.
            (Answer::Octets { len, .. }, None) => self.push(Answer::Octets { start: usize::MAX, len }.record()),
            _ => self.push(answer.record()),
        }
    }

    /// The records so far, three numbers each. Their starts refer to [`Listing::pool`].
    pub fn numbers(&self) -> &[u64] {
        &self.numbers
    }

    /// The octets of the arrays and data so far.
    pub fn pool(&self) -> &[u8] {
        &self.pool
    }

    fn push(&mut self, record: [u64; 3]) -> &mut Listing {
        self.numbers.extend_from_slice(&record);
        self
    }
}
