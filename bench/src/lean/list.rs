//! The listing of a message that was checked and counted.

use super::book::{Block, Book, View};
use super::check::{Dimension, Root, Surplus, Walk};
use super::numbers::Field;
use super::order::number16;
use super::{dimension_octets, refusal, Record, Refusal, ABSENT, GROUP, HEADER, OCTETS};
use std::mem;

impl<const BIG: bool, const COUNTED: bool> Book<BIG, COUNTED> {
    /// Lists the message into the room, three numbers a record, and gives how many records there are.
    pub fn list(&self, message: &[u8], room: &mut [u64]) -> Result<usize, Refusal> {
        let root = Root::read(self, message)?;
        let records = root.records(message)?;
        let room = room.get_mut(..3 * records).ok_or_else(|| refusal(40, records))?;
        root.store(message, room);
        Ok(records)
    }

    /// All records of the message, three numbers each.
    pub fn list_all(&self, message: &[u8]) -> Result<Vec<u64>, Refusal> {
        let root = Root::read(self, message)?;
        let mut room = vec![0; 3 * root.records(message)?];
        root.store(message, &mut room);
        Ok(room)
    }
}

impl<const BIG: bool, const COUNTED: bool> Root<'_, BIG, COUNTED> {
    /// The records, into as much room as they have.
    #[inline(always)]
    fn store(&self, message: &[u8], room: &mut [u64]) {
        let mut store = Store::<BIG, COUNTED> { view: self.view, message, at: HEADER, room };
        store.block(self.block, self.length);
        store.groups(self.block);
        store.surplus_groups(self.surplus.groups);
        store.data(self.block);
    }
}

struct Store<'a, const BIG: bool, const COUNTED: bool> {
    view: View<'a>,
    message: &'a [u8],
    at: usize,
    /// For the records that are still to come.
    room: &'a mut [u64],
}

impl<'a, const BIG: bool, const COUNTED: bool> Store<'a, BIG, COUNTED> {
    fn take(&mut self, records: usize) -> &'a mut [u64] {
        let (taken, left) = mem::take(&mut self.room).split_at_mut(3 * records);
        self.room = left;
        taken
    }

    fn put(&mut self, record: Record) {
        self.take(1).copy_from_slice(&record);
    }

    fn block(&mut self, block: &Block, length: usize) {
        let room = self.take(self.view.book.fields(block).len());
        fields::<BIG>(self.view.fields(block), self.message, self.at, room);
        self.at += length;
    }

    fn groups(&mut self, block: &Block) {
        let present = self.view.groups(block);
        for group in present {
            self.group(group);
        }
        for _ in present.len()..self.view.book.groups(block).len() {
            self.put([ABSENT, 0, 0]);
        }
    }

    fn group(&mut self, block: &Block) {
        let dimension = self.dimension();
        let (length, entries, surplus) = (dimension.length, dimension.entries, self.surplus(block, dimension));
        self.put([GROUP, entries as u64, 0]);
        if Walk::<BIG, COUNTED>::in_one_step(block, surplus) {
            return self.leaves(block, length, entries);
        }
        for _ in 0..entries {
            self.block(block, length);
            self.groups(block);
            if COUNTED && surplus.groups > 0 {
                self.surplus_groups(surplus.groups);
            }
            self.data(block);
            if COUNTED {
                self.surplus_data(surplus.data);
            }
        }
    }

    /// What each entry of a known group has that the book does not know.
    #[inline(always)]
    fn surplus(&self, block: &Block, Dimension { groups, data, .. }: Dimension) -> Surplus {
        if !COUNTED {
            return Surplus::NONE;
        }
        let known = self.view.counts(block);
        Surplus { groups: groups - known.0, data: data - known.1 }
    }

    fn surplus_groups(&mut self, count: usize) {
        for _ in 0..count {
            let Dimension { length, entries, groups, data } = self.dimension();
            if !COUNTED || groups + data == 0 {
                self.at += length * entries;
                continue;
            }
            for _ in 0..entries {
                self.at += length;
                self.surplus_groups(groups);
                self.surplus_data(data);
            }
        }
    }

    fn surplus_data(&mut self, count: usize) {
        for _ in 0..count {
            self.at += 2 + self.number(self.at);
        }
    }

    #[inline(never)]
    fn leaves(&mut self, block: &Block, length: usize, entries: usize) {
        let count = self.view.book.fields(block).len();
        let present = self.view.fields(block);
        for room in self.take(count * entries).chunks_exact_mut(3 * count) {
            fields::<BIG>(present, self.message, self.at, room);
            self.at += length;
        }
    }

    fn data(&mut self, block: &Block) {
        let present = self.view.data(block);
        for _ in 0..present {
            let (start, length) = (self.at + 2, self.number(self.at));
            self.put([OCTETS, start as u64, length as u64]);
            self.at = start + length;
        }
        for _ in present..self.view.book.data(block).len() {
            self.put([ABSENT, 0, 0]);
        }
    }

    #[inline]
    fn dimension(&mut self) -> Dimension {
        let at = self.at;
        self.at += dimension_octets(COUNTED);
        let (groups, data) = if COUNTED { (self.number(at + 4), self.number(at + 6)) } else { (0, 0) };
        Dimension { length: self.number(at), entries: self.number(at + 2), groups, data }
    }

    fn number(&self, at: usize) -> usize {
        number16::<BIG>([self.message[at], self.message[at + 1]]).into()
    }
}

/// The records of a block's fields: those that are present, and absent ones in the room that is left.
#[inline]
fn fields<const BIG: bool>(present: &[Field], message: &[u8], start: usize, room: &mut [u64]) {
    let mut records = room.chunks_exact_mut(3);
    for (field, record) in present.iter().zip(&mut records) {
        record.copy_from_slice(&field.read::<BIG>(message, start));
    }
    for record in records {
        record.copy_from_slice(&[ABSENT, 0, 0]);
    }
}
