//! The answer for one place, found in the same walk that checks the message.

use super::book::{Block, Book, Tables};
use super::check::{Entries, Root, Surplus, Walk};
use super::{refusal, Record, Refusal, ABSENT, GROUP, OCTETS};
use plain::Place;

/// What a place's `kind` names.
const A_FIELD: u64 = 0;
const A_GROUP: u64 = 1;
const A_DATA: u64 = 2;

const STEPS: usize = 4;

impl<const BIG: bool, const COUNTED: bool> Book<BIG, COUNTED> {
    /// What stands at the place.
    pub fn place(&self, message: &[u8], place: &Place) -> Result<Record, Refusal> {
        let root = Root::read(self, message)?;
        let mut seek = Seek::<BIG, COUNTED> { walk: Walk::new(root.view, message), place, found: None };
        seek.part(root.block, root.length, 0, root.surplus)?;
        seek.walk.end()?;
        if !self.tables.has(root.block, place) {
            return Err(refusal(30, 0));
        }
        seek.found.ok_or_else(|| refusal(31, 0))
    }
}

impl Tables {
    fn has(&self, root: &Block, place: &Place) -> bool {
        let down = |block, &(group, _): &(u64, u64)| self.groups(block).get(usize::try_from(group).ok()?);
        let block = match place.steps.iter().try_fold(root, down) {
            Some(block) if place.steps.len() <= STEPS => block,
            _ => return false,
        };
        let count = match place.kind {
            A_FIELD => self.fields(block).len(),
            A_GROUP => self.groups(block).len(),
            A_DATA => self.data(block).len(),
            _ => 0,
        };
        place.element < count as u64
    }
}

struct Seek<'a, const BIG: bool, const COUNTED: bool> {
    walk: Walk<'a, BIG, COUNTED>,
    place: &'a Place,
    found: Option<Record>,
}

impl<const BIG: bool, const COUNTED: bool> Seek<'_, BIG, COUNTED> {
    /// A block with what follows it, where `depth` of the place's steps lead.
    fn part(&mut self, block: &Block, length: usize, depth: usize, surplus: Surplus) -> Result<(), Refusal> {
        let start = self.walk.at;
        self.walk.block(block, length)?;
        if self.asks(A_FIELD, depth) {
            self.field(block, start);
        }
        self.groups(block, depth)?;
        self.walk.surplus_groups(surplus.groups, depth + 1)?;
        self.data(block, depth)?;
        for _ in 0..surplus.data {
            self.walk.data()?;
        }
        Ok(())
    }

    /// Whether the place's element is of this kind and in the block where so many steps lead.
    fn asks(&self, kind: u64, depth: usize) -> bool {
        self.place.kind == kind && self.place.steps.len() == depth
    }

    /// The answer for an element that the book has and the message lacks, until another is found.
    fn absent(&mut self) {
        self.found = Some([ABSENT, 0, 0]);
    }

    fn field(&mut self, block: &Block, start: usize) {
        self.absent();
        if let Some(field) = self.walk.view.fields(block).get(self.place.element as usize) {
            self.found = Some(field.read::<BIG>(self.walk.message, start));
        }
    }

    fn groups(&mut self, block: &Block, depth: usize) -> Result<(), Refusal> {
        let asked = self.asks(A_GROUP, depth);
        if asked {
            self.absent();
        }
        for (number, group) in self.walk.view.groups(block).iter().enumerate() {
            let entries = self.walk.known_dimension(group)?;
            if asked && self.place.element == number as u64 {
                self.found = Some([GROUP, entries.count as u64, 0]);
            }
            match self.place.steps.get(depth) {
                Some(&(step, entry)) if step == number as u64 && entry < entries.count as u64 => {
                    self.entries(group, entries, entry as usize, depth + 1)?;
                }
                _ => self.walk.entries(group, entries)?,
            }
        }
        Ok(())
    }

    /// The entries of a group, with a step into one of them.
    fn entries(&mut self, block: &Block, entries: Entries, entry: usize, depth: usize) -> Result<(), Refusal> {
        let Entries { length, count, surplus } = entries;
        if Walk::<BIG, COUNTED>::in_one_step(block, surplus) {
            let start = self.walk.at + entry * length;
            self.walk.entries(block, entries)?;
            if self.asks(A_FIELD, depth) {
                self.field(block, start);
            }
            return Ok(());
        }
        self.walk.entries(block, Entries { count: entry, ..entries })?;
        self.part(block, length, depth, surplus)?;
        self.walk.entries(block, Entries { count: count - entry - 1, ..entries })
    }

    fn data(&mut self, block: &Block, depth: usize) -> Result<(), Refusal> {
        let asked = self.asks(A_DATA, depth);
        if asked {
            self.absent();
        }
        for number in 0..self.walk.view.data(block) {
            let (start, length) = self.walk.data()?;
            if asked && self.place.element == number as u64 {
                self.found = Some([OCTETS, start as u64, length as u64]);
            }
        }
        Ok(())
    }
}
