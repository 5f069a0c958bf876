//! A message by a book: refusals 10 to 22, and where each element's octets stand.

use crate::{book::DEPTH, refusal, Block, Book, ByteOrder, Refusal, LONGEST, NULL16};

/// An accepted message.
pub struct Message<'a> {
    pub octets: &'a [u8],
    pub template: u16,
    pub version: u16,
    pub book: &'a Book,
    pub block: &'a Block,
    pub root: Part,
}

/// A block on the wire with what follows it: its start, and its block's groups and data, `None` where absent.
pub struct Part {
    pub start: usize,
    pub groups: Vec<Option<Entries>>,
    pub data: Vec<Option<Octets>>,
}

/// A group on the wire: its dimension's block length, and its entries.
pub struct Entries {
    pub length: usize,
    pub parts: Vec<Part>,
}

#[derive(Clone, Copy)]
pub struct Octets {
    pub start: usize,
    pub length: usize,
}

/// Octets of a header.
pub const HEADER: usize = 12;

impl<'a> Message<'a> {
    pub fn read(book: &'a Book, octets: &'a [u8]) -> Result<Message<'a>, Refusal> {
        let (block, surplus) = header(book, octets)?;
        let order = book.byte_order();
        let number = |at| order.number16(octets, at);
        let (length, template, version) = (usize::from(number(0)), number(2), number(6));
        let mut walk = Walk { octets, book, order, version, at: HEADER };
        let root = walk.part(block, length, surplus, 0)?;
        if walk.at < octets.len() {
            return Err(refusal(20, walk.at));
        }
        Ok(Message { octets, template, version, book, block, root })
    }
}

/// How many groups and data a block has, or how many of them the book does not know.
#[derive(Clone, Copy)]
struct Counts {
    groups: usize,
    data: usize,
}

const NONE: Counts = Counts { groups: 0, data: 0 };

/// What the numbers of groups and of data on the wire have beyond those that are present: more only at a later version
/// than the book's. Nothing of a number that is wrong.
fn surplus(book: &Book, block: &Block, version: u16, counts: Counts) -> (Option<usize>, Option<usize>) {
    let known = block.present(version);
    let beyond = |count: usize, known| count.checked_sub(known).filter(|&more| more == 0 || version > book.version);
    (beyond(counts.groups, known.0), beyond(counts.data, known.1))
}

/// Refusals 10 to 15, in order.
fn header<'a>(book: &'a Book, octets: &[u8]) -> Result<(&'a Block, Counts), Refusal> {
    if octets.len() < HEADER || octets.len() > LONGEST {
        return Err(refusal(10, 0));
    }
    let number = |at| book.byte_order().number16(octets, at);
    if let Some(place) = (0..HEADER).step_by(2).find(|&at| number(at) == NULL16) {
        return Err(refusal(11, place));
    }
    let (length, template, schema) = (number(0), number(2), number(4));
    let (version, groups, data) = (number(6), usize::from(number(8)), usize::from(number(10)));
    if schema != book.schema {
        return Err(refusal(12, 4));
    }
    let block = &book.template(template).ok_or(refusal(13, 2))?.block;
    if usize::from(length) < block.need(version) {
        return Err(refusal(14, 0));
    }
    let (groups, data) = surplus(book, block, version, Counts { groups, data });
    Ok((block, Counts { groups: groups.ok_or(refusal(15, 8))?, data: data.ok_or(refusal(15, 10))? }))
}

/// A group's numbers on the wire, and where they stand.
struct Dimension {
    place: usize,
    length: usize,
    entries: usize,
    /// Where dimensions have them.
    counts: Option<Counts>,
}

/// The walk in wire order. The first fault ends it.
struct Walk<'a> {
    octets: &'a [u8],
    book: &'a Book,
    order: ByteOrder,
    version: u16,
    at: usize,
}

impl Walk<'_> {
    fn number(&self, at: usize) -> u16 {
        self.order.number16(self.octets, at)
    }

    /// Passes so many octets and gives their start. Where they run past the end, the fault is placed at `place`.
    fn pass(&mut self, count: usize, place: usize) -> Result<usize, Refusal> {
        let start = self.at;
        if count > self.octets.len() - start {
            return Err(refusal(16, place));
        }
        self.at += count;
        Ok(start)
    }

    /// A block of the wire's length, its groups and its data, with what the book does not know. The root's depth is 0.
    fn part(&mut self, block: &Block, length: usize, surplus: Counts, depth: usize) -> Result<Part, Refusal> {
        let start = self.pass(length, self.at)?;
        let mut groups = Vec::with_capacity(block.groups.len());
        for group in &block.groups {
            let present = group.since <= self.version;
            groups.push(if present { Some(self.entries(&group.block, depth + 1)?) } else { None });
        }
        for _ in 0..surplus.groups {
            self.skip_group(depth + 1)?;
        }
        let mut data = Vec::with_capacity(block.data.len());
        for known in &block.data {
            let present = known.since <= self.version;
            data.push(if present { Some(self.data()?) } else { None });
        }
        for _ in 0..surplus.data {
            self.data()?;
        }
        Ok(Part { start, groups, data })
    }

    /// A known group: its dimension and the part of each entry.
    fn entries(&mut self, block: &Block, depth: usize) -> Result<Entries, Refusal> {
        let Dimension { place, length, entries, counts } = self.dimension()?;
        if length < block.need(self.version) {
            return Err(refusal(18, place));
        }
        let surplus = match counts.map(|counts| surplus(self.book, block, self.version, counts)) {
            Some((Some(groups), Some(data))) => Counts { groups, data },
            Some(_) => return Err(refusal(21, place)),
            None => NONE,
        };
        let parts = (0..entries).map(|_| self.part(block, length, surplus, depth)).collect::<Result<_, _>>()?;
        Ok(Entries { length, parts })
    }

    /// A group that the book does not know, by its own counts. What has none is passed by its product.
    fn skip_group(&mut self, depth: usize) -> Result<(), Refusal> {
        let Dimension { place, length, entries, counts } = self.dimension()?;
        if depth > DEPTH {
            return Err(refusal(22, place));
        }
        let Counts { groups, data } = counts.unwrap_or(NONE);
        if groups == 0 && data == 0 {
            return self.pass(length * entries, place).map(drop);
        }
        for _ in 0..entries {
            self.pass(length, place)?;
            for _ in 0..groups {
                self.skip_group(depth + 1)?;
            }
            for _ in 0..data {
                self.data()?;
            }
        }
        Ok(())
    }

    /// As many numbers as the book says.
    fn dimension(&mut self) -> Result<Dimension, Refusal> {
        let place = self.pass(self.book.dimension_octets(), self.at)?;
        let counted = self.book.is_counted();
        let count = |at| if counted { self.number(at) } else { 0 };
        let numbers = [self.number(place), self.number(place + 2), count(place + 4), count(place + 6)];
        if numbers.contains(&NULL16) {
            return Err(refusal(17, place));
        }
        let [length, entries, groups, data] = numbers.map(usize::from);
        let counts = counted.then_some(Counts { groups, data });
        Ok(Dimension { place, length, entries, counts })
    }

    fn data(&mut self) -> Result<Octets, Refusal> {
        let place = self.pass(2, self.at)?;
        let length = self.number(place);
        if length == NULL16 {
            return Err(refusal(19, place));
        }
        let length = usize::from(length);
        Ok(Octets { start: self.pass(length, place)?, length })
    }
}
