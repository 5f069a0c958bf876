//! Random texts: octets of a message, a pool that has some, records that can be written and such that cannot or only
//! just can. And which texts a message has, and a listing that is refused.

use super::faults;
use plain::{message::Part, text_length, Block, Draft, Field, Message, Record, Refusal, Rng};

/// How a text was read, and why one was not written: the order is that of `NAMES`.
#[derive(Clone, Copy)]
pub enum Text {
    Whole,
    Shorter,
    Empty,
    Null,
    NullWithNumber,
    NullForRequired,
    TooLong,
    WithNul,
    EmptyForOptional,
}

pub const NAMES: [&str; 9] = [
    "as long as the field",
    "shorter",
    "empty",
    "null",
    "51 of null with a number",
    "52 of null",
    "53 of a longer one",
    "53 of a NUL",
    "53 of an empty one",
];

/// The most octets of a text.
const LONGEST: usize = 1024;

/// Of a text in so many octets; none, all and all but one come often.
fn length(rng: &mut Rng, octets: usize) -> usize {
    match rng.below(8) {
        0 => 0,
        1 | 2 => octets,
        3 => octets - 1,
        _ => rng.between(0, octets),
    }
}

/// Any but NUL, mostly letters.
fn characters(rng: &mut Rng, count: usize) -> Vec<u8> {
    let range = if rng.chance(60) { (b'A', b'Z') } else { (1, 255) };
    (0..count).map(|_| rng.word(range.0.into(), range.1.into()) as u8).collect()
}

/// The octets of a field: a text, and behind its NUL zeros or anything.
pub fn octets(rng: &mut Rng, count: usize) -> Vec<u8> {
    let length = length(rng, count);
    let mut octets = if rng.chance(70) { vec![0; count] } else { rng.octets(count) };
    octets[..length].copy_from_slice(&characters(rng, length));
    if let Some(nul) = octets.get_mut(length) {
        *nul = 0;
    }
    octets
}

/// So many octets that may be anything; then as many as a text may have without NUL, a NUL, and as many without again.
pub fn pool(rng: &mut Rng, any: usize) -> Vec<u8> {
    let (before, after) = (characters(rng, LONGEST), characters(rng, LONGEST));
    [rng.octets(any), before, vec![0], after].concat()
}

/// Where a pool of so many octets has that NUL.
fn nul(pool: u64) -> u64 {
    pool - LONGEST as u64 - 1
}

/// A text from before the pool's NUL or from behind it, often right beside it or at the pool's end; or null.
pub fn record(rng: &mut Rng, field: &Field, pool: u64) -> Record {
    if field.is_optional() && rng.chance(25) {
        return [1, 0, 0];
    }
    let least = usize::from(field.is_optional());
    let length = length(rng, field.octets()).max(least);
    let free = LONGEST - length;
    let between = rng.between(0, free);
    let apart = rng.pick(&[0, between, free]) as u64;
    let start = if rng.chance(50) { nul(pool) - apart - length as u64 } else { nul(pool) + 1 + apart };
    [2, start, length as u64]
}

/// Null and empty texts, for any field; texts around the field's length; such as have the pool's NUL at any position;
/// null with a number that is not 0; and what any octets may have.
pub fn fault(rng: &mut Rng, field: &Field, record: Record, pool: u64) -> Record {
    let (first, octets) = (nul(pool) + 1, field.octets() as u64);
    match rng.below(12) {
        0 | 1 => [1, 0, 0],
        2 | 3 => [2, rng.pick(&[first, pool]), 0],
        4 => [2, first, rng.pick(&[octets - 1, octets])],
        5 | 6 => [2, first, octets + 1 + rng.below(3) as u64],
        7 | 8 => {
            let length = rng.between(1, field.octets());
            [2, nul(pool) - rng.below(length) as u64, length as u64]
        }
        9 => rng.pick(&[[1, 1, 0], [1, 0, 1], [1, first, octets]]),
        _ => faults::octets(rng, record, pool),
    }
}

/// The texts that a message has: their fields, and where they start.
fn texts<'a>(message: &Message<'a>) -> Vec<(&'a Field, usize)> {
    let mut texts = Vec::new();
    collect(message.block, &message.root, message.version, &mut texts);
    texts
}

fn collect<'a>(block: &'a Block, part: &Part, version: u16, texts: &mut Vec<(&'a Field, usize)>) {
    let present = block.fields.iter().filter(|field| field.is_text() && field.since <= version);
    texts.extend(present.map(|field| (field, part.start + usize::from(field.offset))));
    for (number, group) in block.groups.iter().enumerate() {
        part.entries(number).iter().for_each(|entry| collect(&group.block, entry, version, texts));
    }
}

/// How each text of the message is read.
pub fn read<'a>(message: &'a Message) -> impl Iterator<Item = Text> + 'a {
    texts(message).into_iter().map(|(field, start)| {
        match (text_length(&message.octets[start..start + field.octets()]), field.is_optional()) {
            (0, true) => Text::Null,
            (0, false) => Text::Empty,
            (length, _) if length < field.octets() => Text::Shorter,
            _ => Text::Whole,
        }
    })
}

/// Where the message has octets after the first NUL of a text.
pub fn tails(message: &Message) -> Vec<usize> {
    let tail = |(field, start): (&Field, usize)| {
        let end = start + field.octets();
        start + text_length(&message.octets[start..end]) + 1..end
    };
    texts(message).into_iter().flat_map(tail).collect()
}

/// Why the draft is refused, if that is for a text.
pub fn refused(block: &Block, draft: &Draft, refused: &Refusal) -> Option<Text> {
    let number = refused.place as usize;
    let mut walk = Walk { listing: &draft.listing, next: 0, sought: number };
    let field = walk.block(block).err().flatten().filter(|field| field.is_text())?;
    let record = draft.listing.get(3 * number..3 * number + 3)?;
    let end = record[1].checked_add(record[2]).filter(|&end| end <= draft.pool.len() as u64);
    match (refused.number, record[0], end) {
        (51, 1, _) => Some(Text::NullWithNumber),
        (52, ..) => Some(Text::NullForRequired),
        (53, _, Some(_)) if record[2] == 0 => Some(Text::EmptyForOptional),
        (53, _, Some(_)) if record[2] > field.octets() as u64 => Some(Text::TooLong),
        (53, _, Some(_)) => Some(Text::WithNul),
        _ => None,
    }
}

/// Goes along the records of a listing that is good before the one that is sought, and ends there: with its field, if
/// it is a field's.
struct Walk<'l> {
    listing: &'l [u64],
    next: usize,
    sought: usize,
}

impl Walk<'_> {
    fn block<'a>(&mut self, block: &'a Block) -> Result<(), Option<&'a Field>> {
        for field in &block.fields {
            self.pass(Some(field))?;
        }
        for group in &block.groups {
            for _ in 0..self.pass(None)? {
                self.block(&group.block)?;
            }
        }
        block.data.iter().try_for_each(|_| self.pass(None).map(drop))
    }

    /// A record's second number: of a group's, how many entries follow.
    fn pass<'a>(&mut self, field: Option<&'a Field>) -> Result<u64, Option<&'a Field>> {
        if self.next == self.sought {
            return Err(field);
        }
        self.next += 1;
        Ok(self.listing[3 * self.next - 2])
    }
}
