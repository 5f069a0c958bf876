//! Random messages: some by the plain writer from random listings, some with all the freedom that the wire has.

use super::listings::{self, entries, number};
use super::{lists, texts};
use plain::{writer, Block, Book, Field, Rng, Template};

/// A whole message for one of the book's templates, but that a later one may have a group below depth four.
pub fn message(rng: &mut Rng, book: &Book) -> Vec<u8> {
    let template = &book.templates[rng.below(book.templates.len())];
    if rng.chance(35) {
        return written(rng, book, template);
    }
    let version = match rng.below(10) {
        0..=3 => book.version,
        4..=7 => rng.word(0, book.version),
        _ => rng.word(book.version, book.version.saturating_add(4).min(65534)),
    };
    let (clean, deepest) = (rng.chance(40), if rng.chance(15) { TOO_DEEP } else { DEPTH });
    let mut wire = Wire { rng, book, version, clean, deepest, message: Vec::new() };
    wire.root(template);
    wire.message
}

/// Longer ones take the time of many.
const LONG: usize = 8192;

/// By the plain writer, from a random listing; nothing where it would be long, or where none can be written.
fn written(rng: &mut Rng, book: &Book, template: &Template) -> Vec<u8> {
    match listings::whole(rng, book, template).map(|draft| writer::message(book, &draft)) {
        Some(Ok(message)) if message.len() <= LONG => message,
        Some(Err(refused)) if refused.number != 55 => panic!("the listing holds, and is refused by {refused:?}"),
        _ => Vec::new(),
    }
}

/// A message of any version: longer blocks than declared, padding and tails of texts that are not zero, values that are
/// unlisted or out of range, and groups and data beyond the book's.
struct Wire<'a> {
    rng: &'a mut Rng,
    book: &'a Book,
    version: u16,
    clean: bool,
    /// Of groups that the book does not know.
    deepest: usize,
    message: Vec<u8>,
}

const DEPTH: usize = 4;
const TOO_DEEP: usize = 5;

impl Wire<'_> {
    fn put(&mut self, number: usize) {
        self.message.extend(self.book.byte_order().octets16(number as u16));
    }

    fn root(&mut self, template: &Template) {
        let block = &template.block;
        let length = self.length(block);
        for number in [length, template.id.into(), self.book.schema.into(), self.version.into()] {
            self.put(number);
        }
        let surplus = (self.rng.below(3), self.rng.below(3));
        let surplus = self.counts(block, surplus);
        self.part(block, length, surplus, 0);
    }

    /// The counts of a block with so much that the book does not know, which only a later version has.
    fn counts(&mut self, block: &Block, surplus: (usize, usize)) -> (usize, usize) {
        let surplus = if self.version > self.book.version { surplus } else { (0, 0) };
        let known = block.present(self.version);
        self.put(known.0 + surplus.0);
        self.put(known.1 + surplus.1);
        surplus
    }

    /// A block length on the wire: at least the need.
    fn length(&mut self, block: &Block) -> usize {
        let need = block.need(self.version);
        match self.rng.below(4) {
            0 | 1 => usize::from(block.length),
            2 => need,
            _ => need + self.rng.below(6),
        }
    }

    fn part(&mut self, block: &Block, length: usize, surplus: (usize, usize), depth: usize) {
        self.block(block, length);
        let version = self.version;
        for group in block.groups.iter().filter(|group| group.since <= version) {
            self.group(&group.block, depth + 1);
        }
        for _ in 0..surplus.0 {
            self.surplus_group(depth + 1);
        }
        for _ in 0..block.present(version).1 + surplus.1 {
            self.data();
        }
    }

    fn group(&mut self, block: &Block, depth: usize) {
        let (length, entries) = (self.length(block), entries(self.rng) as usize);
        self.put(length);
        self.put(entries);
        let mut surplus = (0, 0);
        if self.book.is_counted() {
            let inside = self.inside(depth);
            surplus = self.counts(block, inside);
        }
        for _ in 0..entries {
            self.part(block, length, surplus, depth);
        }
    }

    /// How many groups and data that the book does not know are in each entry of a group of this depth: mostly none.
    fn inside(&mut self, depth: usize) -> (usize, usize) {
        let groups = if depth < self.deepest { self.rng.pick(&[0, 0, 0, 1, 1, 2]) } else { 0 };
        (groups, self.rng.pick(&[0, 0, 0, 1, 2]))
    }

    fn surplus_group(&mut self, depth: usize) {
        let inside = if self.book.is_counted() && self.rng.chance(60) { self.inside(depth) } else { (0, 0) };
        let (length, entries) = match self.rng.below(8) {
            0 if inside == (0, 0) => (0, self.rng.between(0, 65534)),
            1 => (self.rng.between(0, 65534), 0),
            _ => (self.rng.below(6), self.rng.below(4)),
        };
        self.put(length);
        self.put(entries);
        if self.book.is_counted() {
            self.put(inside.0);
            self.put(inside.1);
        }
        if inside == (0, 0) {
            return self.fill(length * entries);
        }
        for _ in 0..entries {
            self.part(&Block::default(), length, inside, depth);
        }
    }

    fn data(&mut self) {
        let length = self.rng.below(6);
        self.put(length);
        self.fill(length);
    }

    fn fill(&mut self, count: usize) {
        let octets = self.rng.octets(count);
        self.message.extend(octets);
    }

    fn block(&mut self, block: &Block, length: usize) {
        let mut octets = if self.clean { vec![0; length] } else { self.rng.octets(length) };
        for field in block.fields.iter().filter(|field| field.since <= self.version) {
            if self.clean || self.rng.chance(60) {
                let value = value(self.rng, self.book, field);
                octets[usize::from(field.offset)..field.end()].copy_from_slice(&value);
            }
        }
        self.message.extend(octets);
    }
}

/// Octets for a field: a text, or a number in range and listed or not, null, or just beside.
fn value(rng: &mut Rng, book: &Book, field: &Field) -> Vec<u8> {
    let (kind, list) = (field.kind(), book.list_of(field));
    if field.is_text() {
        return texts::octets(rng, field.octets());
    }
    if field.is_array() {
        return rng.octets(field.octets());
    }
    let value = match rng.below(10) {
        0 | 1 => kind.null,
        2 => kind.least - 1,
        3 => kind.greatest + 1,
        4 => number(rng, kind),
        5 => lists::beside(rng, kind, list),
        _ => lists::listed(rng, kind, list).unwrap_or(kind.null),
    };
    kind.octets_of(value, book.byte_order())
}
