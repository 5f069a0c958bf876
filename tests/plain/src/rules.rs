//! The rules of a block that has been read: refusals 5 to 7, and the need of a block.

use crate::message::HEADER;
use crate::types::{Type, TYPES};
use crate::{Block, Book, Field, NULL16};

impl Field {
    /// Of a field whose type is known.
    pub fn kind(&self) -> &'static Type {
        &TYPES[usize::from(self.kind)]
    }

    pub fn octets(&self) -> usize {
        self.kind().octets * usize::from(self.length)
    }

    pub fn end(&self) -> usize {
        usize::from(self.offset) + self.octets()
    }

    /// Octets, which are not range-checked: text, or else plain ones that are never null.
    pub fn is_array(&self) -> bool {
        self.length != 1
    }

    pub fn is_text(&self) -> bool {
        self.is_array() && self.kind == 0
    }

    pub fn is_optional(&self) -> bool {
        self.presence == 1
    }

    fn words_hold(&self) -> bool {
        let lengths = if self.kind == 0 || self.kind == 2 { 1..=1024 } else { 1..=1 };
        usize::from(self.kind) < TYPES.len() && lengths.contains(&self.length) && self.presence <= 1
    }
}

impl Block {
    /// The end of the last field with since at most the version, or 0.
    pub fn need(&self, version: u16) -> usize {
        self.fields.iter().rfind(|field| field.since <= version).map_or(0, Field::end)
    }

    /// How many groups and how many data a message of the version has.
    pub fn present(&self, version: u16) -> (usize, usize) {
        let groups = self.groups.iter().filter(|group| group.since <= version).count();
        (groups, self.data.iter().filter(|data| data.since <= version).count())
    }
}

/// Block length, type, length, presence, offset and list, here and in every group.
pub fn shape_holds(block: &Block, book: &Book) -> bool {
    let mut end = 0;
    for field in &block.fields {
        if !field.words_hold() || usize::from(field.offset) < end || !list_holds(field, book) {
            return false;
        }
        end = field.end();
    }
    block.length != NULL16
        && end <= usize::from(block.length)
        && block.groups.iter().all(|group| shape_holds(&group.block, book))
}

/// The field names no list, or one that the book has and that can stand over it.
fn list_holds(field: &Field, book: &Book) -> bool {
    field.list == 0 || book.list_of(field).map_or(false, |list| list.fits(field))
}

/// Sinces of a block, here and in every group. `own` is the since of the group whose block it is; the root has none.
/// Data and groups inside a group are as old as it, or younger where dimensions count them.
pub fn sinces_hold(block: &Block, book: &Book, own: Option<u16>) -> bool {
    let fields: Vec<u16> = block.fields.iter().map(|field| field.since).collect();
    let groups: Vec<u16> = block.groups.iter().map(|group| group.since).collect();
    let data: Vec<u16> = block.data.iter().map(|data| data.since).collect();
    let never_falls = |sinces: &[u16]| sinces.windows(2).all(|pair| pair[0] <= pair[1]);
    let never_above = |sinces: &[u16]| sinces.iter().all(|&since| since <= book.version);
    let by_themselves = [&fields, &groups, &data].iter().all(|sinces| never_falls(sinces) && never_above(sinces));
    let by_group = own.map_or(true, |own| {
        let may_have = |&since: &u16| since == own || book.is_counted() && since > own;
        fields.first() == Some(&own) && groups.iter().chain(&data).all(may_have)
    });
    by_themselves && by_group && block.groups.iter().all(|group| sinces_hold(&group.block, book, Some(group.since)))
}

impl Book {
    /// The octets of the shortest message that is written of a root block: no group has an entry, no data an octet.
    pub fn shortest(&self, root: &Block) -> usize {
        let (groups, data) = (root.groups.len(), root.data.len());
        HEADER + usize::from(root.length) + self.dimension_octets() * groups + 2 * data
    }
}
