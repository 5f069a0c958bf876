//! Random listings of a template: the same seed gives the same ones everywhere.

use plain::{lists::ENUMERATION, writer, Block, Book, Draft, Field, NameList, Rng, Template};
use std::ops::RangeInclusive;

pub struct Fill {
    pub rng: Rng,
    /// How many entries a group may have.
    pub entries: RangeInclusive<usize>,
    /// How many octets a data may have.
    pub data: RangeInclusive<usize>,
    /// How many characters a text may have, where its field is not shorter.
    pub text: RangeInclusive<usize>,
}

const NULLS_PERCENT: usize = 20;

/// Characters of a text that fills its field: as many as any field has.
pub const FULL: RangeInclusive<usize> = 1024..=1024;

impl Fill {
    /// A message of the template, as the book's writer has it.
    pub fn message(&mut self, book: &Book, template: &Template) -> Vec<u8> {
        let mut draft = Draft { template: template.id, listing: Vec::new(), pool: Vec::new() };
        self.block(book, &template.block, &mut draft);
        writer::message(book, &draft).expect("every value is in range and listed")
    }

    fn block(&mut self, book: &Book, block: &Block, draft: &mut Draft) {
        for field in &block.fields {
            self.field(field, book.list_of(field), draft);
        }
        for group in &block.groups {
            let entries = self.between(self.entries.clone());
            draft.listing.extend([4, entries as u64, 0]);
            for _ in 0..entries {
                self.block(book, &group.block, draft);
            }
        }
        for _ in &block.data {
            let octets = self.between(self.data.clone());
            self.octets(octets, draft);
        }
    }

    fn field(&mut self, field: &Field, list: Option<&NameList>, draft: &mut Draft) {
        if field.is_array() && !field.is_text() {
            return self.octets(field.octets(), draft);
        }
        let kind = field.kind();
        if field.is_optional() && self.rng.chance(NULLS_PERCENT) {
            return draft.listing.extend([1, 0, 0]);
        }
        if field.is_text() {
            let characters = self.between(self.text.clone()).min(field.octets());
            return self.characters(characters, draft);
        }
        let value = match list {
            None => (kind.least + i128::from(self.rng.draw()) % (kind.greatest - kind.least + 1)) as u64,
            Some(list) if list.kind == ENUMERATION => self.rng.pick(&list.numbers).into(),
            Some(list) => self.rng.draw() & list.numbers.iter().fold(0, |bits, &bit| bits | 1 << bit),
        };
        draft.listing.extend([0, value, 0]);
    }

    fn octets(&mut self, count: usize, draft: &mut Draft) {
        draft.listing.extend([2, draft.pool.len() as u64, count as u64]);
        draft.pool.extend(self.rng.octets(count));
    }

    fn characters(&mut self, count: usize, draft: &mut Draft) {
        draft.listing.extend([2, draft.pool.len() as u64, count as u64]);
        draft.pool.extend((0..count).map(|_| self.rng.word(b'A'.into(), b'Z'.into()) as u8));
    }

    fn between(&mut self, range: RangeInclusive<usize>) -> usize {
        self.rng.between(*range.start(), *range.end())
    }
}
