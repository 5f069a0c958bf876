//! When a newer book legally extends an older one.

use crate::{Block, Book, Data, Field, Group};

pub fn extends(newer: &Book, older: &Book) -> bool {
    let books = Books { newer, older };
    let templates_stand = older.templates.iter().all(|template| {
        newer.template(template.id).map_or(false, |same| books.extends(&same.block, &template.block, true))
    });
    let same_format = newer.byte_order == older.byte_order && newer.dimension == older.dimension;
    newer.schema == older.schema && same_format && newer.version > older.version && templates_stand
}

struct Books<'a> {
    newer: &'a Book,
    older: &'a Book,
}

impl Books<'_> {
    /// As every added element is: since above the older version.
    fn is_young(&self, since: u16) -> bool {
        since > self.older.version
    }

    /// Older elements come first and are as they were, and added ones are younger. Groups and data are added only where
    /// the block `grows`: the root, and where dimensions count them every block.
    fn extends(&self, newer: &Block, older: &Block, grows: bool) -> bool {
        let kept = newer.length >= older.length
            && newer.fields.starts_with(&older.fields)
            && older.fields.iter().all(|field| self.keeps_list(field))
            && newer.data.starts_with(&older.data)
            && newer.groups.len() >= older.groups.len();
        let added = || {
            let (groups, data) = (&newer.groups[older.groups.len()..], &newer.data[older.data.len()..]);
            (grows || groups.is_empty() && data.is_empty())
                && self.are_young(&newer.fields[older.fields.len()..], groups, data)
        };
        let extended = |(old, new): (&Group, &Group)| {
            let same = old.id == new.id && old.since == new.since;
            same && self.extends(&new.block, &old.block, self.older.is_counted())
        };
        kept && added() && older.groups.iter().zip(&newer.groups).all(extended)
    }

    /// Added elements, with all that is inside added groups: groups and data only where dimensions count them.
    fn are_young(&self, fields: &[Field], groups: &[Group], data: &[Data]) -> bool {
        let inside = |Block { fields, groups, data, .. }: &Block| {
            let may_be = self.older.is_counted() || groups.is_empty() && data.is_empty();
            may_be && self.are_young(fields, groups, data)
        };
        fields.iter().all(|field| self.is_young(field.since))
            && groups.iter().all(|group| self.is_young(group.since) && inside(&group.block))
            && data.iter().all(|data| self.is_young(data.since))
    }

    /// The list of an older field keeps its kind and its numbers, to which more may be added.
    fn keeps_list(&self, field: &Field) -> bool {
        match (self.older.list_of(field), self.newer.list_of(field)) {
            (Some(old), Some(new)) => {
                new.kind == old.kind && old.numbers.iter().all(|number| new.numbers.contains(number))
            }
            (old, new) => old.is_none() && new.is_none(),
        }
    }
}
