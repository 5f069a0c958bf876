//! A message by a book: refusals 10 to 22, and the number of its records.

use super::book::{Block, Book, View};
use super::order::number16;
use super::{dimension_octets, refusal, Refusal, DEPTH, HEADER, LONGEST, NULL16};

/// What the header says.
pub struct Root<'a, const BIG: bool, const COUNTED: bool> {
    pub view: View<'a>,
    pub block: &'a Block,
    pub length: usize,
    pub surplus: Surplus,
}

/// How many groups and data a block has that the book does not know.
#[derive(Clone, Copy)]
pub struct Surplus {
    pub groups: usize,
    pub data: usize,
}

impl Surplus {
    pub const NONE: Surplus = Surplus { groups: 0, data: 0 };

    pub fn is_none(self) -> bool {
        self.groups + self.data == 0
    }
}

/// A group's numbers on the wire; without counts these are 0.
#[derive(Clone, Copy)]
pub struct Dimension {
    pub length: usize,
    pub entries: usize,
    pub groups: usize,
    pub data: usize,
}

/// A known group: its numbers, and what each of its entries has that the book does not know.
#[derive(Clone, Copy)]
pub struct Entries {
    pub length: usize,
    pub count: usize,
    pub surplus: Surplus,
}

impl<const BIG: bool, const COUNTED: bool> Book<BIG, COUNTED> {
    pub fn check(&self, message: &[u8]) -> Result<(), Refusal> {
        Root::read(self, message)?.records(message).map(drop)
    }
}

impl<'a, const BIG: bool, const COUNTED: bool> Root<'a, BIG, COUNTED> {
    /// Refusals 10 to 15, in order.
    #[inline(always)]
    pub fn read(book: &'a Book<BIG, COUNTED>, message: &[u8]) -> Result<Root<'a, BIG, COUNTED>, Refusal> {
        let book = &book.tables;
        if message.len() < HEADER || message.len() > LONGEST {
            return Err(refusal(10, 0));
        }
        let number = |at| number16::<BIG>([message[at], message[at + 1]]);
        let numbers = [number(0), number(2), number(4), number(6), number(8), number(10)];
        if let Some(number) = numbers.iter().position(|&number| number == NULL16) {
            return Err(refusal(11, 2 * number));
        }
        let [length, template, schema, version, groups, data] = numbers;
        if schema != book.schema {
            return Err(refusal(12, 4));
        }
        let block = book.template(template).ok_or_else(|| refusal(13, 2))?;
        let (view, length) = (View::new(book, version), usize::from(length));
        if length < view.need(block) {
            return Err(refusal(14, 0));
        }
        let surplus = |count: u16, known, place| view.surplus(count.into(), known).ok_or_else(|| refusal(15, place));
        let groups = surplus(groups, view.groups(block).len(), 8)?;
        let data = surplus(data, view.data(block), 10)?;
        Ok(Root { view, block, length, surplus: Surplus { groups, data } })
    }

    /// Refusals 16 to 22, and how many records there are.
    #[inline(always)]
    pub fn records(&self, message: &[u8]) -> Result<usize, Refusal> {
        let mut walk = Walk::<BIG, COUNTED>::new(self.view, message);
        walk.block(self.block, self.length)?;
        for group in self.view.groups(self.block) {
            walk.group(group)?;
        }
        walk.surplus_groups(self.surplus.groups, 1)?;
        for _ in 0..self.view.data(self.block) + self.surplus.data {
            walk.data()?;
        }
        walk.end()?;
        Ok(walk.records)
    }
}

/// The walk in wire order. The first fault ends it.
pub struct Walk<'a, const BIG: bool, const COUNTED: bool> {
    pub view: View<'a>,
    pub message: &'a [u8],
    pub at: usize,
    /// So far.
    pub records: usize,
}

impl<'a, const BIG: bool, const COUNTED: bool> Walk<'a, BIG, COUNTED> {
    pub fn new(view: View<'a>, message: &'a [u8]) -> Walk<'a, BIG, COUNTED> {
        Walk { view, message, at: HEADER, records: 0 }
    }

    /// A block of the wire's length. The records of its elements are counted here.
    #[inline]
    pub fn block(&mut self, block: &Block, length: usize) -> Result<(), Refusal> {
        if length > self.message.len() - self.at {
            return Err(refusal(16, self.at));
        }
        self.at += length;
        let book = self.view.book;
        self.records += book.fields(block).len() + book.groups(block).len() + book.data(block).len();
        Ok(())
    }

    /// A known group.
    #[inline(always)]
    fn group(&mut self, block: &Block) -> Result<(), Refusal> {
        let entries = self.known_dimension(block)?;
        self.entries(block, entries)
    }

    /// Whether the entries are of one length each, with nothing between them.
    #[inline(always)]
    pub fn in_one_step(block: &Block, surplus: Surplus) -> bool {
        block.leaf && (!COUNTED || surplus.is_none())
    }

    /// The entries of a known group. Where they have neither groups nor data they are passed in one step.
    pub fn entries(&mut self, block: &Block, Entries { length, count, surplus }: Entries) -> Result<(), Refusal> {
        if Self::in_one_step(block, surplus) {
            let left = self.message.len() - self.at;
            if length * count > left {
                return Err(refusal(16, self.at + left / length * length));
            }
            self.at += length * count;
            self.records += self.view.book.fields(block).len() * count;
            return Ok(());
        }
        for _ in 0..count {
            self.entry(block, length, surplus)?;
        }
        Ok(())
    }

    fn entry(&mut self, block: &Block, length: usize, surplus: Surplus) -> Result<(), Refusal> {
        self.block(block, length)?;
        for group in self.view.groups(block) {
            self.group(group)?;
        }
        if COUNTED && surplus.groups > 0 {
            self.surplus_groups(surplus.groups, usize::from(block.depth) + 1)?;
        }
        let surplus = if COUNTED { surplus.data } else { 0 };
        for _ in 0..self.view.data(block) + surplus {
            self.data()?;
        }
        Ok(())
    }

    #[inline(always)]
    pub fn known_dimension(&mut self, block: &Block) -> Result<Entries, Refusal> {
        let place = self.at;
        let Dimension { length, entries: count, groups, data } = self.dimension()?;
        if length < self.view.need(block) {
            return Err(refusal(18, place));
        }
        let known = if COUNTED { self.view.counts(block) } else { (groups, data) };
        let same = known == (groups, data);
        let surplus = if same { Surplus::NONE } else { self.surplus((groups, data), known, place)? };
        Ok(Entries { length, count, surplus })
    }

    /// What a known group counts beyond what is known.
    #[inline(never)]
    fn surplus(&self, counts: (usize, usize), known: (usize, usize), place: usize) -> Result<Surplus, Refusal> {
        match (self.view.surplus(counts.0, known.0), self.view.surplus(counts.1, known.1)) {
            (Some(groups), Some(data)) => Ok(Surplus { groups, data }),
            _ => Err(refusal(21, place)),
        }
    }

    #[inline]
    fn dimension(&mut self) -> Result<Dimension, Refusal> {
        let (place, size) = (self.at, dimension_octets(COUNTED));
        let octets = self.message.get(place..place + size).ok_or_else(|| refusal(16, place))?;
        let number = |at| number16::<BIG>([octets[at], octets[at + 1]]);
        let (length, entries) = (number(0), number(2));
        let (groups, data) = if COUNTED { (number(4), number(6)) } else { (0, 0) };
        if length == NULL16 || entries == NULL16 || COUNTED && (groups == NULL16 || data == NULL16) {
            return Err(refusal(17, place));
        }
        self.at += size;
        Ok(Dimension { length: length.into(), entries: entries.into(), groups: groups.into(), data: data.into() })
    }

    /// Groups of this depth that the book does not know. What they do not count is passed in one step.
    pub fn surplus_groups(&mut self, count: usize, depth: usize) -> Result<(), Refusal> {
        for _ in 0..count {
            let place = self.at;
            let dimension = self.dimension()?;
            if COUNTED && depth > DEPTH {
                return Err(refusal(22, place));
            }
            let Dimension { length, entries, groups, data } = dimension;
            if COUNTED && groups + data > 0 {
                self.surplus_entries(dimension, place, depth)?;
                continue;
            }
            if length * entries > self.message.len() - self.at {
                return Err(refusal(16, place));
            }
            self.at += length * entries;
        }
        Ok(())
    }

    fn surplus_entries(&mut self, dimension: Dimension, place: usize, depth: usize) -> Result<(), Refusal> {
        for _ in 0..dimension.entries {
            if dimension.length > self.message.len() - self.at {
                return Err(refusal(16, place));
            }
            self.at += dimension.length;
            self.surplus_groups(dimension.groups, depth + 1)?;
            for _ in 0..dimension.data {
                self.data()?;
            }
        }
        Ok(())
    }

    /// Start and length.
    #[inline]
    pub fn data(&mut self) -> Result<(usize, usize), Refusal> {
        let place = self.at;
        let octets = self.message.get(place..place + 2).ok_or_else(|| refusal(16, place))?;
        let length = number16::<BIG>([octets[0], octets[1]]);
        if length == NULL16 {
            return Err(refusal(19, place));
        }
        let (start, length) = (place + 2, usize::from(length));
        if length > self.message.len() - start {
            return Err(refusal(16, place));
        }
        self.at = start + length;
        Ok((start, length))
    }

    pub fn end(&self) -> Result<(), Refusal> {
        if self.at < self.message.len() {
            return Err(refusal(20, self.at));
        }
        Ok(())
    }
}
