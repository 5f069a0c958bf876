//! Random listings: whole ones, ones with faults in their records, and ones that have lost or gained some.

use super::{faults, lists, texts};
use plain::{types::Type, Block, Book, Draft, Field, Record, Rng, Template};

/// Something to write with the book, at fault nearly as often as not.
pub fn draft(rng: &mut Rng, book: &Book) -> Draft {
    let template = &book.templates[rng.below(book.templates.len())];
    let pool = if rng.below(250) == 0 { LARGE } else { POOL };
    let until_fault = if rng.chance(30) { rng.below(8) } else { NEVER };
    let (mut draft, _) = made(rng, book, template, pool, until_fault);
    match rng.below(30) {
        0 => draft.template = rng.pick(&[draft.template.wrapping_add(1), draft.template.wrapping_sub(1), 65535]),
        1 => draft.pool.truncate(rng.below(60)),
        2..=5 => faults::numbers(rng, &mut draft.listing),
        _ => (),
    }
    draft
}

/// A listing that the template's message can be written from; nothing where a field comes that takes no number.
pub fn whole(rng: &mut Rng, book: &Book, template: &Template) -> Option<Draft> {
    let (draft, is_whole) = made(rng, book, template, POOL, NEVER);
    is_whole.then_some(draft)
}

/// Octets of a pool that are no texts.
const POOL: usize = 1100;
/// Enough for a data that is longer than any may be.
const LARGE: usize = 65600;
const NEVER: usize = usize::MAX;

/// A listing, and whether every field in it has got a number that it takes.
fn made(rng: &mut Rng, book: &Book, template: &Template, any: usize, until_fault: usize) -> (Draft, bool) {
    let octets = texts::pool(rng, any);
    let (pool, large) = (octets.len() as u64, any == LARGE);
    let mut lister = Lister { rng, book, pool, large, until_fault, listing: Vec::new(), is_whole: true };
    lister.block(&template.block);
    (Draft { template: template.id, listing: lister.listing, pool: octets }, lister.is_whole)
}

struct Lister<'a> {
    rng: &'a mut Rng,
    book: &'a Book,
    /// The pool's length.
    pool: u64,
    /// Whether it is enough for any data.
    large: bool,
    /// Records before the next fault.
    until_fault: usize,
    listing: Vec<u64>,
    is_whole: bool,
}

impl Lister<'_> {
    fn put(&mut self, record: Record, fault: impl FnOnce(&mut Rng, Record) -> Record) {
        let record = match self.until_fault {
            0 if self.rng.chance(25) => faults::shape(self.rng, record),
            0 => fault(self.rng, record),
            _ => record,
        };
        self.listing.extend(record);
        self.until_fault = match self.until_fault {
            NEVER => NEVER,
            0 => self.rng.pick(&[1, 5, NEVER]),
            records => records - 1,
        };
    }

    fn block(&mut self, block: &Block) {
        for field in &block.fields {
            match (field.is_text(), field.is_array()) {
                (true, _) => self.text(field),
                (false, true) => self.octets(field.length.into()),
                (false, false) => self.number(field),
            }
        }
        for group in &block.groups {
            let entries = entries(self.rng);
            self.put([4, entries, 0], faults::group);
            for _ in 0..entries {
                self.block(&group.block);
            }
        }
        for _ in &block.data {
            let length = self.data_length();
            self.octets(length as u64);
        }
    }

    /// Where the pool is large, near the most of a data, or near the length that makes the longest message.
    fn data_length(&mut self) -> usize {
        match self.rng.below(6) {
            0 if self.large => self.rng.between(65533, 65535),
            1..=3 if self.large => self.rng.between(65350, 65521),
            _ => self.rng.below(7),
        }
    }

    fn octets(&mut self, length: u64) {
        let (start, pool) = (self.rng.below(50) as u64, self.pool);
        self.put([2, start, length], |rng, record| faults::octets(rng, record, pool));
    }

    /// Where a fault is to come, it is often this text's.
    fn text(&mut self, field: &Field) {
        if self.until_fault != NEVER && self.rng.chance(50) {
            self.until_fault = 0;
        }
        let pool = self.pool;
        let record = texts::record(self.rng, field, pool);
        self.put(record, |rng, record| texts::fault(rng, field, record, pool));
    }

    fn number(&mut self, field: &Field) {
        let (kind, list) = (field.kind(), self.book.list_of(field));
        let record = match lists::listed(self.rng, kind, list) {
            Some(value) if !field.is_optional() || self.rng.chance(70) => [0, value as u64, 0],
            _ => [1, 0, 0],
        };
        self.is_whole &= record[0] == 0 || field.is_optional();
        self.put(record, |rng, _| faults::number(rng, kind, list));
    }
}

/// In the type's range; its ends come often.
pub fn number(rng: &mut Rng, kind: &Type) -> i128 {
    let range = (kind.greatest - kind.least) as u64;
    match rng.below(8) {
        0 => kind.least,
        1 => kind.greatest,
        _ => kind.least + i128::from(rng.draw() % range),
    }
}

pub fn entries(rng: &mut Rng) -> u64 {
    rng.pick(&[0, 0, 1, 1, 1, 2, 2, 3])
}
