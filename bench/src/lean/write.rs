//! A message from a listing: refusals 50 to 55 and the message's length, and then its octets.

use super::book::{Block, Book, Tables};
use super::numbers::Field;
use super::order::octets16;
use super::{dimension_octets, refusal, Refusal, GROUP, HEADER, LONGEST, OCTETS};
use std::slice::ChunksExact;

/// The most entries of a group, and octets of a data.
const MOST: u64 = 65534;

impl<const BIG: bool, const COUNTED: bool> Book<BIG, COUNTED> {
    /// Writes a message of the template at the room's start and gives its length.
    pub fn write(&self, id: u16, listing: &[u64], pool: &[u8], room: &mut [u8]) -> Result<usize, Refusal> {
        let book = &self.tables;
        let block = book.template(id).ok_or_else(|| refusal(50, 0))?;
        let mut judge = Judge::<COUNTED> { book, pool, listing, left: listing, length: HEADER };
        judge.block(block)?;
        if !judge.left.is_empty() {
            return Err(judge.fault(51));
        }
        let length = judge.length;
        if length > LONGEST || length > room.len() {
            return Err(refusal(55, 0));
        }
        let room = &mut room[..length];
        room.fill(0);
        let (groups, data) = (book.groups(block).len() as u16, book.data(block).len() as u16);
        let mut store = Store::<BIG> { book, counted: COUNTED, pool, records: listing.chunks_exact(3), room, at: 0 };
        for number in [block.length as u16, id, book.schema, book.version, groups, data] {
            store.number(number);
        }
        store.block(block);
        Ok(length)
    }
}

/// Judges the records in order, and counts the message's octets.
struct Judge<'a, const COUNTED: bool> {
    book: &'a Tables,
    pool: &'a [u8],
    listing: &'a [u64],
    /// The listing's part that is still to be judged.
    left: &'a [u64],
    length: usize,
}

impl<'a, const COUNTED: bool> Judge<'a, COUNTED> {
    /// At the first record of those that are left.
    #[cold]
    fn fault(&self, number: u32) -> Refusal {
        refusal(number, (self.listing.len() - self.left.len()) / 3)
    }

    fn block(&mut self, block: &Block) -> Result<(), Refusal> {
        self.fields(self.book.fields(block), 1)?;
        self.length += block.length;
        for group in self.book.groups(block) {
            let entries = self.entries()?;
            self.length += dimension_octets(COUNTED);
            if group.leaf {
                self.fields(self.book.fields(group), entries)?;
                self.length += group.length * entries;
                continue;
            }
            for _ in 0..entries {
                self.block(group)?;
            }
        }
        for _ in self.book.data(block) {
            self.data()?;
        }
        Ok(())
    }

    /// The fields of so many blocks that come one after the other.
    #[inline]
    fn fields(&mut self, fields: &[Field], blocks: usize) -> Result<(), Refusal> {
        let (numbers, pool) = (3 * fields.len(), self.pool);
        for _ in 0..blocks {
            let records = self.left.get(..numbers).ok_or_else(|| self.first_fault(fields))?;
            if !fields.iter().zip(records.chunks_exact(3)).all(|(field, record)| field.takes(record, pool)) {
                return Err(self.first_fault(fields));
            }
            self.left = &self.left[numbers..];
        }
        Ok(())
    }

    /// In a block's fields: a record that is not taken, or that is missing.
    #[cold]
    fn first_fault(&self, fields: &[Field]) -> Refusal {
        let judged = (self.listing.len() - self.left.len()) / 3;
        let mut pairs = fields.iter().zip(self.left.chunks_exact(3)).enumerate();
        match pairs.find(|(_, (field, record))| !field.takes(record, self.pool)) {
            Some((number, (field, record))) => refusal(field.fault(record), judged + number),
            None => refusal(51, self.listing.len() / 3),
        }
    }

    #[inline]
    fn entries(&mut self) -> Result<usize, Refusal> {
        match *self.left {
            [GROUP, entries, 0, ..] if entries <= MOST => {
                self.left = &self.left[3..];
                Ok(entries as usize)
            }
            [GROUP, _, 0, ..] => Err(self.fault(54)),
            _ => Err(self.fault(51)),
        }
    }

    #[inline]
    fn data(&mut self) -> Result<(), Refusal> {
        match *self.left {
            [OCTETS, start, length, ..] => {
                let within = start.checked_add(length).map_or(false, |end| end <= self.pool.len() as u64);
                if length > MOST || !within {
                    return Err(self.fault(53));
                }
                self.left = &self.left[3..];
                self.length += 2 + length as usize;
                Ok(())
            }
            _ => Err(self.fault(51)),
        }
    }
}

/// Stores a message whose records were judged, in a room of its length that is zero all over.
struct Store<'a, const BIG: bool> {
    book: &'a Tables,
    counted: bool,
    pool: &'a [u8],
    records: ChunksExact<'a, u64>,
    room: &'a mut [u8],
    at: usize,
}

impl<'a, const BIG: bool> Store<'a, BIG> {
    fn record(&mut self) -> &'a [u64] {
        self.records.next().expect("as many records as were judged")
    }

    fn number(&mut self, number: u16) {
        self.room[self.at..self.at + 2].copy_from_slice(&octets16::<BIG>(number));
        self.at += 2;
    }

    fn block(&mut self, block: &Block) {
        self.fields(block, 1);
        for group in self.book.groups(block) {
            let entries = self.record()[1] as usize;
            self.number(group.length as u16);
            self.number(entries as u16);
            if self.counted {
                self.number(self.book.groups(group).len() as u16);
                self.number(self.book.data(group).len() as u16);
            }
            if group.leaf {
                self.fields(group, entries);
                continue;
            }
            for _ in 0..entries {
                self.block(group);
            }
        }
        for _ in self.book.data(block) {
            let record = self.record();
            let (start, length) = (record[1] as usize, record[2] as usize);
            self.number(length as u16);
            self.room[self.at..self.at + length].copy_from_slice(&self.pool[start..start + length]);
            self.at += length;
        }
    }

    /// The fields of so many blocks that come one after the other.
    #[inline]
    fn fields(&mut self, block: &Block, blocks: usize) {
        let fields = self.book.fields(block);
        for _ in 0..blocks {
            for (field, record) in fields.iter().zip(&mut self.records) {
                field.write::<BIG>(record, self.pool, self.room, self.at);
            }
            self.at += block.length;
        }
    }
}
