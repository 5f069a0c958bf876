//! Where the numbers of a message stand, by a book. Of a message that the book refuses they are those that are read
//! before it is refused, and may be more.

use plain::{Block, Book, NULL16};
use std::ops::Range;

/// The octets of each number, and the starts of dimensions, and of the dimensions and lengths inside groups that the
/// book does not know.
#[derive(Default)]
pub struct Numbers {
    pub all: Vec<Range<usize>>,
    pub dimensions: Vec<usize>,
    pub unknown_inside: Vec<usize>,
}

pub fn numbers(book: &Book, octets: &[u8]) -> Numbers {
    let mut walk = Walk { book, version: 0, octets, at: 0, numbers: Numbers::default() };
    walk.message();
    walk.numbers
}

/// Goes along the wire. It ends where the message does, or where the message is at fault.
struct Walk<'a> {
    book: &'a Book,
    version: u16,
    octets: &'a [u8],
    at: usize,
    numbers: Numbers,
}

/// Groups and data.
type Counts = (usize, usize);

const DEPTH: usize = 4;

impl Walk<'_> {
    /// Passes the next 16-bit number.
    fn number(&mut self) -> Option<usize> {
        let span = self.at..self.at + 2;
        let number = self.book.byte_order().number16(self.octets.get(span.clone())?, 0);
        self.numbers.all.push(span);
        self.at += 2;
        (number != NULL16).then_some(number.into())
    }

    fn message(&mut self) -> Option<()> {
        let mut header = [0; 6];
        for number in &mut header {
            *number = self.number()?;
        }
        let [length, template, _, version, groups, data] = header;
        let block = &self.book.template(template as u16)?.block;
        self.version = version as u16;
        let surplus = self.surplus(block, (groups, data))?;
        self.part(block, length, surplus, 0)
    }

    /// How many of these the book does not know.
    fn surplus(&self, block: &Block, (groups, data): Counts) -> Option<Counts> {
        let known = block.present(self.version);
        Some((groups.checked_sub(known.0)?, data.checked_sub(known.1)?))
    }

    /// A block of so many octets, its groups and its data. The root's depth is 0.
    fn part(&mut self, block: &Block, length: usize, surplus: Counts, depth: usize) -> Option<()> {
        let (version, start) = (self.version, self.at);
        let octets = self.octets.get(start..start + length)?;
        for field in block.fields.iter().filter(|field| field.since <= version && !field.is_array()) {
            octets.get(usize::from(field.offset)..field.end())?;
            self.numbers.all.push(start + usize::from(field.offset)..start + field.end());
        }
        self.at += length;
        for group in block.groups.iter().filter(|group| group.since <= version) {
            self.group(&group.block, depth + 1)?;
        }
        for _ in 0..surplus.0 {
            self.is_unknown(depth);
            self.group(&Block::default(), depth + 1)?;
        }
        let known = block.present(version).1;
        for number in 0..known + surplus.1 {
            if number >= known {
                self.is_unknown(depth);
            }
            self.at += self.number()?;
        }
        Some(())
    }

    /// Of what follows a block of this depth.
    fn is_unknown(&mut self, depth: usize) {
        if depth > 0 {
            self.numbers.unknown_inside.push(self.at);
        }
    }

    /// A group that the book does not know is one of a block without elements.
    fn group(&mut self, block: &Block, depth: usize) -> Option<()> {
        self.numbers.dimensions.push(self.at);
        let (length, entries) = (self.number()?, self.number()?);
        let counted = self.book.is_counted();
        let counts = if counted { (self.number()?, self.number()?) } else { block.present(self.version) };
        let surplus = self.surplus(block, counts).filter(|_| depth <= DEPTH)?;
        if *block == Block::default() && surplus == (0, 0) {
            self.at += length * entries;
            return Some(());
        }
        (0..entries).try_for_each(|_| self.part(block, length, surplus, depth))
    }
}
