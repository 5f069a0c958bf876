//! Demand 3, on the library's own answers: a newer book that legally extends an older one, and a message whose
//! template is in both.

use super::compare::BothBooks;
use crate::readers::stream_place;
use crate::report::same;
use plain::{extension::extends, message::Part, Block, Book, Field, Message, Place, Record};
use std::fmt;

/// An older book and one that legally extends it, both accepted.
pub struct Pair<'a> {
    old_tree: &'a Book,
    new_tree: &'a Book,
    old: &'a siphonbard::Book,
    new: &'a siphonbard::Book,
}

/// How many messages had their template in both books, of how many of these each half of the demand speaks, how many
/// values the older book's lists alone lacked, how many texts ended before their field does or were null, and how many
/// groups and data the older lacked inside groups.
#[derive(Default)]
pub struct Agreed {
    messages: u64,
    accepted: u64,
    not_later: u64,
    older_lack: u64,
    short_texts: u64,
    added_inside: u64,
}

impl Agreed {
    pub fn all_came(&self) -> bool {
        let values = [self.older_lack, self.short_texts, self.added_inside];
        self.accepted > 0 && self.not_later > 0 && values.iter().all(|&count| count > 0)
    }
}

impl fmt::Display for Agreed {
    fn fmt(&self, out: &mut fmt::Formatter) -> fmt::Result {
        let Agreed { messages, accepted, not_later, older_lack, short_texts, added_inside } = self;
        write!(out, "{messages} messages, {accepted} accepted, {not_later} not later, ")?;
        write!(out, "{older_lack} values that only the older book's lists lack, {short_texts} short texts, ")?;
        write!(out, "{added_inside} groups and data inside groups that the older lacks")
    }
}

/// First numbers of records.
const NUMBER: u64 = 0;
const NULL: u64 = 1;
const OCTETS: u64 = 2;
const GROUP: u64 = 4;
const UNLISTED: u64 = 6;

/// One message in so many is asked at every place besides; the others' answers are compared by their listings.
const ASKED_BY_PLACE: u64 = 4;

impl<'a> Pair<'a> {
    pub fn of(older: &'a BothBooks<'a>, newer: &'a BothBooks<'a>) -> Option<Pair<'a>> {
        let (old_tree, new_tree) = (older.plain.as_ref().ok()?, newer.plain.as_ref().ok()?);
        let (old, new) = (older.library.as_ref().ok()?, newer.library.as_ref().ok()?);
        let pair = Pair { old_tree, new_tree, old, new };
        extends(new_tree, old_tree).then_some(pair)
    }

    /// What the newer accepts, the older accepts, with the same answer for every element that the older has, but for
    /// kind 6 with the same number where only the older's list lacks it. At a version no later than the older's, both
    /// accept or both refuse, with the same number and place. Nothing is said of a message whose template is not in
    /// both.
    pub fn agree(&self, octets: &[u8], agreed: &mut Agreed) -> Option<Result<(), String>> {
        let id = self.old_tree.byte_order().number16(octets.get(..12)?, 2);
        let blocks = (&self.old_tree.template(id)?.block, &self.new_tree.template(id)?.block);
        agreed.messages += 1;
        Some(self.answers_agree(octets, blocks, agreed))
    }

    fn answers_agree(&self, octets: &[u8], blocks: (&Block, &Block), agreed: &mut Agreed) -> Result<(), String> {
        let records = |book: &siphonbard::Book| {
            book.list_all(octets).map(|all| all.iter().map(|answer| answer.record()).collect::<Vec<Record>>())
        };
        let (old, new) = (records(self.old), records(self.new));
        if self.old_tree.byte_order().number16(octets, 6) <= self.old_tree.version {
            agreed.not_later += 1;
            same("verdict of two books", old.as_ref().err(), new.as_ref().err())?;
        }
        if let Ok(new) = new {
            agreed.accepted += 1;
            let mut projection = Projection::of(self.old_tree, new);
            projection.block(Some(blocks.0), blocks.1, false);
            agreed.older_lack += projection.lacking;
            agreed.short_texts += projection.short_texts;
            agreed.added_inside += projection.added_inside;
            same("answers of two books", old, Ok(projection.known))?;
            if agreed.accepted % ASKED_BY_PLACE == 0 {
                self.places_agree(octets)?;
            }
        }
        Ok(())
    }

    /// The same answer by either book at every place of the message that the older has, but for its list.
    fn places_agree(&self, octets: &[u8]) -> Result<(), String> {
        let message =
            Message::read(self.old_tree, octets).map_err(|refused| format!("{refused:?} by the plain reader"))?;
        let mut places = Vec::new();
        collect(message.block, &message.root, &mut Vec::new(), &mut places);
        for (place, field) in &places {
            let old = stream_place(self.old, octets, place);
            let new = stream_place(self.new, octets, place);
            let seen = new.map(|record| seen_by(self.old_tree, *field, record));
            same("place of two books", old, seen).map_err(|failure| format!("{place:?}, {failure}"))?;
        }
        Ok(())
    }
}

/// The newer book's record as the older has it; of a field, the older's: a number that its list lacks is of kind 6.
fn seen_by(older: &Book, field: Option<&Field>, record: Record) -> Record {
    let unlisted = |field| record[0] == NUMBER && !older.is_listed(field, record[1].into());
    match field {
        Some(field) if unlisted(field) => [UNLISTED, record[1], 0],
        _ => record,
    }
}

fn is_short(field: &Field, [first, _, third]: Record) -> bool {
    field.is_text() && (first == NULL || first == OCTETS && third < field.length.into())
}

/// The newer book's records, and of those that were passed the ones for elements that the older has, as it has them.
struct Projection<'a> {
    older: &'a Book,
    records: std::vec::IntoIter<Record>,
    known: Vec<Record>,
    /// Values that only the older book's lists lack.
    lacking: u64,
    /// Texts that end before their field does, and null ones, where the older book has the field.
    short_texts: u64,
    /// Groups and data that are present in an entry of the older book's and that it lacks.
    added_inside: u64,
}

impl<'a> Projection<'a> {
    fn of(older: &'a Book, newer: Vec<Record>) -> Projection<'a> {
        let records = newer.into_iter();
        Projection { older, records, known: Vec::new(), lacking: 0, short_texts: 0, added_inside: 0 }
    }

    /// Passes the record of an element that the older book knows or not; of a field, the older's.
    fn pass(&mut self, known: bool, field: Option<&Field>) -> Record {
        let record = self.records.next().expect("a record for every element");
        let seen = seen_by(self.older, field, record);
        self.lacking += u64::from(seen != record);
        self.short_texts += u64::from(field.map_or(false, |field| is_short(field, record)));
        if known {
            self.known.push(seen);
        }
        record
    }

    /// Passes a block, which is the root's or that of an entry; the older book may have no such block.
    fn block(&mut self, older: Option<&Block>, newer: &Block, inside: bool) {
        for number in 0..newer.fields.len() {
            let field = older.and_then(|block| block.fields.get(number));
            self.pass(field.is_some(), field);
        }
        for (number, group) in newer.groups.iter().enumerate() {
            let inner = older.and_then(|block| block.groups.get(number)).map(|group| &group.block);
            let [first, entries, _] = self.pass(inner.is_some(), None);
            let added = inside && older.is_some() && inner.is_none();
            self.added_inside += u64::from(added && first == GROUP);
            for _ in 0..if first == GROUP { entries } else { 0 } {
                self.block(inner, &group.block, true);
            }
        }
        for number in 0..newer.data.len() {
            let known = older.map_or(false, |block| number < block.data.len());
            let [first, ..] = self.pass(known, None);
            let added = inside && older.is_some() && !known;
            self.added_inside += u64::from(added && first == OCTETS);
        }
    }
}

/// Every place of a part, and the field that is there.
fn collect<'a>(
    block: &'a Block,
    part: &Part,
    steps: &mut Vec<(u64, u64)>,
    places: &mut Vec<(Place, Option<&'a Field>)>,
) {
    let counts = [block.fields.len(), block.groups.len(), block.data.len()];
    for (kind, &count) in counts.iter().enumerate() {
        for number in 0..count {
            let place = Place { steps: steps.clone(), kind: kind as u64, element: number as u64 };
            places.push((place, block.fields.get(number).filter(|_| kind == 0)));
        }
    }
    for (number, group) in block.groups.iter().enumerate() {
        for (entry, part) in part.entries(number).iter().enumerate() {
            steps.push((number as u64, entry as u64));
            collect(&group.block, part, steps, places);
            steps.pop();
        }
    }
}
