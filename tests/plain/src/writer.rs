//! A message from a listing: refusals 50 to 55.

use crate::{refusal, Block, Book, Field, Record, Refusal, LONGEST};

/// What a message is to be written from: a template id, a listing, and the pool that its starts refer to.
#[derive(Clone, Debug)]
pub struct Draft {
    pub template: u16,
    pub listing: Vec<u64>,
    pub pool: Vec<u8>,
}

/// Writes at the room's start and gives the message's length. The room past it is unaltered, and all of it by a
/// refusal.
pub fn write(book: &Book, draft: &Draft, room: &mut [u8]) -> Result<usize, Refusal> {
    let message = message(book, draft)?;
    let part = room.get_mut(..message.len()).ok_or(refusal(55, 0))?;
    part.copy_from_slice(&message);
    Ok(message.len())
}

/// The message, where there is room enough.
pub fn message(book: &Book, draft: &Draft) -> Result<Vec<u8>, Refusal> {
    let Draft { template, listing, pool } = draft;
    let block = &book.template(*template).ok_or(refusal(50, 0))?.block;
    let header =
        [block.length, *template, book.schema, book.version, block.groups.len() as u16, block.data.len() as u16];
    let mut writer = Writer { book, listing, pool, record: 0, length: 0, message: Vec::new() };
    for number in header {
        writer.number16(number);
    }
    writer.block(block)?;
    if writer.record * 3 < listing.len() {
        return Err(refusal(51, writer.record));
    }
    if writer.length > LONGEST {
        return Err(refusal(55, 0));
    }
    Ok(writer.message)
}

struct Writer<'a> {
    book: &'a Book,
    listing: &'a [u64],
    pool: &'a [u8],
    /// The next record's number.
    record: usize,
    /// Of the message, also where it is longer than any may be; octets past the longest are counted and not kept.
    length: usize,
    message: Vec<u8>,
}

impl<'a> Writer<'a> {
    fn put(&mut self, octets: &[u8]) {
        self.length += octets.len();
        if self.length <= LONGEST {
            self.message.extend(octets);
        }
    }

    fn number16(&mut self, number: u16) {
        self.put(&self.book.byte_order().octets16(number));
    }

    /// The next record and its number.
    fn next(&mut self) -> Result<(Record, usize), Refusal> {
        let number = self.record;
        self.record += 1;
        match self.listing.get(3 * number..3 * number + 3) {
            Some(record) => Ok(([record[0], record[1], record[2]], number)),
            None => Err(refusal(51, self.listing.len() / 3)),
        }
    }

    fn block(&mut self, block: &Block) -> Result<(), Refusal> {
        let mut octets = vec![0; usize::from(block.length)];
        for field in &block.fields {
            let value = if field.is_text() {
                self.text(field)?
            } else if field.is_array() {
                self.array(field)?.to_vec()
            } else {
                self.number(field)?
            };
            octets[usize::from(field.offset)..field.end()].copy_from_slice(&value);
        }
        self.put(&octets);
        for group in &block.groups {
            let entries = self.entries()?;
            for number in self.book.dimension_of(&group.block, entries) {
                self.number16(number);
            }
            for _ in 0..entries {
                self.block(&group.block)?;
            }
        }
        for _ in &block.data {
            let octets = self.data()?;
            self.number16(octets.len() as u16);
            self.put(octets);
        }
        Ok(())
    }

    fn number(&mut self, field: &Field) -> Result<Vec<u8>, Refusal> {
        let (kind, order) = (field.kind(), self.book.byte_order());
        match self.next()? {
            ([0, second, 0], number) => {
                let value = if kind.signed { i128::from(second as i64) } else { i128::from(second) };
                let holds = kind.holds(value) && self.book.is_listed(field, value);
                holds.then(|| kind.octets_of(value, order)).ok_or(refusal(52, number))
            }
            ([1, 0, 0], _) if field.is_optional() => Ok(kind.octets_of(kind.null, order)),
            ([1, 0, 0], number) => Err(refusal(52, number)),
            (_, number) => Err(refusal(51, number)),
        }
    }

    /// Filled with NUL. An optional text is null and never empty.
    fn text(&mut self, field: &Field) -> Result<Vec<u8>, Refusal> {
        let text = match self.next()? {
            ([2, start, length], number) => {
                let text = self.pooled(start, length, number)?;
                let none = text.is_empty() && field.is_optional();
                let fits = text.len() <= field.octets() && !text.contains(&0) && !none;
                fits.then_some(text).ok_or(refusal(53, number))?
            }
            ([1, 0, 0], _) if field.is_optional() => &[],
            ([1, 0, 0], number) => return Err(refusal(52, number)),
            (_, number) => return Err(refusal(51, number)),
        };
        let mut octets = text.to_vec();
        octets.resize(field.octets(), 0);
        Ok(octets)
    }

    fn array(&mut self, field: &Field) -> Result<&'a [u8], Refusal> {
        match self.next()? {
            ([2, start, length], number) if length == u64::from(field.length) => self.pooled(start, length, number),
            ([2, ..], number) => Err(refusal(53, number)),
            (_, number) => Err(refusal(51, number)),
        }
    }

    fn data(&mut self) -> Result<&'a [u8], Refusal> {
        match self.next()? {
            ([2, start, length], number) if length <= 65534 => self.pooled(start, length, number),
            ([2, ..], number) => Err(refusal(53, number)),
            (_, number) => Err(refusal(51, number)),
        }
    }

    fn pooled(&self, start: u64, length: u64, number: usize) -> Result<&'a [u8], Refusal> {
        let end = u128::from(start) + u128::from(length);
        if end > self.pool.len() as u128 {
            return Err(refusal(53, number));
        }
        Ok(&self.pool[start as usize..end as usize])
    }

    fn entries(&mut self) -> Result<u16, Refusal> {
        match self.next()? {
            ([4, entries, 0], _) if entries <= 65534 => Ok(entries as u16),
            ([4, _, 0], number) => Err(refusal(54, number)),
            (_, number) => Err(refusal(51, number)),
        }
    }
}
