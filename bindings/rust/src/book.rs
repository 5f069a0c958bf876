use crate::{answers, ffi, Answer, Element, Listing, Refusal, Step};

/// The longest message, in octets.
const LONGEST: usize = 65535;

/// For how many records `list_all` has room at first: more than most messages have.
const FIRST: usize = 64;

/// A schema book that was checked and prepared: for many messages by one book.
///
/// It owns the numbers that it was prepared to, so that no message pays for the book again, its octets are not needed
/// any more, and any threads may use it at the same time. The methods answer as the functions of the same name do.
///
/// ```
/// use siphonbard::Book;
///
/// # let words: [u16; 43] = [
/// #     7, 0, 1, 43, 0, 0, 2, 1, 10, 33, 8, 2, 1, 1, 38, 6, 1, 0, 0, 0, 0, 44, 3, 1, 4, 1, 0, 0, 58, 0, 453, 0, 2, 1,
/// #     0, 0, 452, 2, 1, 0, 0, 0, 0,
/// # ];
/// # let octets: Vec<u8> = words.iter().flat_map(|word| word.to_le_bytes()).collect();
/// # let message = b"\x08\0\x01\0\x07\0\0\0\x01\0\x01\0\xe8\x03\0\0\xfb\xff\0\0\x02\0\x02\0\x01\0\x03\0\x02\0ab";
/// // The book and the message of the crate's page.
/// let book = Book::checked(&octets)?;
/// drop(octets);
///
/// std::thread::scope(|threads| {
///     for _ in 0..2 {
///         threads.spawn(|| book.check(message).unwrap());
///     }
/// });
///
/// fn any_thread_may_have<T: Send + Sync + 'static>(_: T) {}
/// any_thread_may_have(book);
/// # Ok::<(), siphonbard::Refusal>(())
/// ```
#[derive(Clone, Debug)]
pub struct Book {
    /// All that `ffi::prepare` stored, and nothing else. Nothing alters them.
    numbers: Box<[u64]>,
}

impl Book {
    /// The book, or 1 to 7.
    pub fn checked(octets: &[u8]) -> Result<Book, Refusal> {
        let mut room = vec![0; ffi::PREPARED_MOST];
        let count = ffi::prepare(octets, &mut room)?;
        room.truncate(count);
        Ok(Book { numbers: room.into_boxed_slice() })
    }

    /// The numbers that the book was prepared to: for the `siphonbard_stream_` calls of [`ffi`].
    pub fn numbers(&self) -> &[u64] {
        &self.numbers
    }

    /// Whether the message is one of the book's; else 10 to 22.
    pub fn check(&self, message: &[u8]) -> Result<(), Refusal> {
        ffi::stream_check(self, message)
    }

    /// Lists the message into the room, as [`crate::list`] does, or 10 to 40.
    pub fn list(&self, message: &[u8], room: &mut [u64]) -> Result<usize, Refusal> {
        ffi::stream_list(self, message, room)
    }

    /// All answers of the message, in the order of its listing, or 10 to 22. One call of the library lists a message of
    /// up to 64 records; of a longer one the first call tells how many there are, and a second one lists them.
    pub fn list_all(&self, message: &[u8]) -> Result<Vec<Answer>, Refusal> {
        let mut first = [0; 3 * FIRST];
        match self.list(message, &mut first) {
            Ok(records) => Ok(all(&first[..3 * records])),
            Err(Refusal { number: Refusal::ROOM_TOO_SMALL, place: records }) => {
                let mut room = vec![0; 3 * records];
                self.list(message, &mut room)?;
                Ok(all(&room))
            }
            Err(refusal) => Err(refusal),
        }
    }

    /// What stands at one place of the message, or 10 to 31.
    pub fn place(&self, message: &[u8], steps: &[Step], element: Element) -> Result<Answer, Refusal> {
        ffi::stream_place(self, message, steps, element)
    }

    /// Writes a message of the template into the room, as [`crate::write`] does, or 50 to 55.
    pub fn write(&self, template_id: u16, listing: &[u64], pool: &[u8], room: &mut [u8]) -> Result<usize, Refusal> {
        ffi::stream_write(self, template_id, listing, pool, room)
    }

    /// A message of the template from the listing, or 50 to 55.
    pub fn write_all(&self, template_id: u16, listing: &[u64], pool: &[u8]) -> Result<Vec<u8>, Refusal> {
        let mut room = vec![0; LONGEST];
        let length = self.write(template_id, listing, pool, &mut room)?;
        room.truncate(length);
        room.shrink_to_fit();
        Ok(room)
    }

    /// A message of the template from a [`Listing`] and its pool, or 50 to 55.
    pub fn write_listing(&self, template_id: u16, listing: &Listing) -> Result<Vec<u8>, Refusal> {
        self.write_all(template_id, listing.numbers(), listing.pool())
    }
}

/// The answers that a listing stands for, in room for exactly so many.
fn all(listing: &[u64]) -> Vec<Answer> {
    let mut all = Vec::with_capacity(listing.len() / 3);
    all.extend(answers(listing));
    all
}
