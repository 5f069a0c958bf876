//! What an accepted message says: its listing, and the answer for one place.

use crate::message::Part;
use crate::{refusal, text_length, Block, Field, Message, Record, Refusal};

const NUMBER: u64 = 0;
const NULL: u64 = 1;
const OCTETS: u64 = 2;
const ABSENT: u64 = 3;
const GROUP: u64 = 4;
pub const OUT_OF_RANGE: u64 = 5;
pub const UNLISTED: u64 = 6;

/// Steps (group, entry), then the kind of an element (0 field, 1 group, 2 data) and its number. All may be anything.
#[derive(Clone, Debug, PartialEq, Eq)]
pub struct Place {
    pub steps: Vec<(u64, u64)>,
    pub kind: u64,
    pub element: u64,
}

impl Message<'_> {
    pub fn list(&self) -> Vec<Record> {
        let mut records = Vec::new();
        self.list_part(self.block, &self.root, &mut records);
        records
    }

    fn list_part(&self, block: &Block, part: &Part, records: &mut Vec<Record>) {
        records.extend(block.fields.iter().map(|field| self.field(field, part)));
        for (number, group) in block.groups.iter().enumerate() {
            records.push(part.group(number));
            for entry in part.entries(number) {
                self.list_part(&group.block, entry, records);
            }
        }
        records.extend((0..block.data.len()).map(|number| part.data(number)));
    }

    pub fn place(&self, place: &Place) -> Result<Record, Refusal> {
        let block = place.block(self.block).ok_or(refusal(30, 0))?;
        let mut part = &self.root;
        for &(group, entry) in &place.steps {
            let entry = usize::try_from(entry).ok();
            let entries = part.entries(group as usize);
            part = entry.and_then(|entry| entries.get(entry)).ok_or(refusal(31, 0))?;
        }
        let number = place.element as usize;
        Ok(match place.kind {
            0 => self.field(&block.fields[number], part),
            1 => part.group(number),
            _ => part.data(number),
        })
    }

    fn field(&self, field: &Field, part: &Part) -> Record {
        if field.since > self.version {
            return [ABSENT, 0, 0];
        }
        let start = part.start + usize::from(field.offset);
        let octets = &self.octets[start..start + field.octets()];
        if field.is_text() {
            return match text_length(octets) {
                0 if field.is_optional() => [NULL, 0, 0],
                length => [OCTETS, start as u64, length as u64],
            };
        }
        if field.is_array() {
            return [OCTETS, start as u64, octets.len() as u64];
        }
        let value = field.kind().value(octets, self.book.byte_order());
        if field.kind().holds(value) {
            [if self.book.is_listed(field, value) { NUMBER } else { UNLISTED }, value as u64, 0]
        } else if value == field.kind().null && field.is_optional() {
            [NULL, 0, 0]
        } else {
            [OUT_OF_RANGE, value as u64, 0]
        }
    }
}

impl Place {
    /// The block that holds the element, if the book has every number of the place.
    fn block<'a>(&self, root: &'a Block) -> Option<&'a Block> {
        if self.steps.len() > 4 {
            return None;
        }
        let down = |block: &'a Block, &(group, _): &(u64, u64)| Some(&nth(&block.groups, group)?.block);
        let block = self.steps.iter().try_fold(root, down)?;
        let there = match self.kind {
            0 => nth(&block.fields, self.element).is_some(),
            1 => nth(&block.groups, self.element).is_some(),
            2 => nth(&block.data, self.element).is_some(),
            _ => false,
        };
        there.then_some(block)
    }
}

fn nth<T>(elements: &[T], number: u64) -> Option<&T> {
    elements.get(usize::try_from(number).ok()?)
}

impl Part {
    fn group(&self, number: usize) -> Record {
        match &self.groups[number] {
            Some(entries) => [GROUP, entries.parts.len() as u64, 0],
            None => [ABSENT, 0, 0],
        }
    }

    /// None if the group is absent.
    pub fn entries(&self, number: usize) -> &[Part] {
        self.groups[number].as_ref().map_or(&[], |entries| &entries.parts)
    }

    fn data(&self, number: usize) -> Record {
        match self.data[number] {
            Some(octets) => [OCTETS, octets.start as u64, octets.length as u64],
            None => [ABSENT, 0, 0],
        }
    }
}
