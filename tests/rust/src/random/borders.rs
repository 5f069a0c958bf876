//! Books brought to a border of one rule, or just past it.

use super::books::{add_field, data_of};
use super::lists::{add_list, MOST};
use plain::dimension::{FOUR, TWO};
use plain::{byte_order::BIG, lists::SET, types::TYPES, Block, Book, Field, Group, Rng, Template, LONGEST};

/// The book with its byte order, its numbers of a dimension, one count, depth, number, since, list or template's length
/// at its limit or one beyond.
pub fn book(rng: &mut Rng, mut book: Book) -> Book {
    match rng.below(24) {
        0..=2 => templates(rng, &mut book),
        3..=4 => lists(rng, &mut book),
        5..=6 => names(rng, &mut book),
        7 => book.byte_order = rng.word(BIG, BIG + 1),
        8 => book.dimension = rng.word(TWO - 1, FOUR + 1),
        9..=12 => shortest(rng, &mut book),
        _ => one_block(rng, &mut book),
    }
    book
}

fn one_block(rng: &mut Rng, book: &mut Book) {
    let number = rng.below(book.templates.len());
    let (block, depth) = some_block(rng, &mut book.templates[number].block, 0);
    match rng.below(8) {
        0 => fill(rng, block, 64, |block| block.fields.len(), |rng, block, since| add_field(rng, &[], block, since)),
        1 => fill_groups(rng, block),
        2 => fill_data(rng, block),
        3 => deepen(rng, block, depth),
        4 => block.fields.truncate(rng.below(2)),
        5 => lengths(rng, block),
        6 => field(rng, block),
        _ => sinces(rng, block),
    }
}

/// A block of the tree, and its depth.
fn some_block<'b>(rng: &mut Rng, block: &'b mut Block, depth: usize) -> (&'b mut Block, usize) {
    if block.groups.is_empty() || rng.chance(40) {
        return (block, depth);
    }
    let number = rng.below(block.groups.len());
    some_block(rng, &mut block.groups[number].block, depth + 1)
}

fn small(rng: &mut Rng, since: u16) -> Group {
    let mut block = Block::default();
    add_field(rng, &[], &mut block, since);
    Group { id: 1, since, block }
}

/// A since that an added element may have: the last group's, else the first field's.
fn last_since(block: &Block) -> u16 {
    let first_field = block.fields.first().map_or(0, |field| field.since);
    block.groups.last().map_or(first_field, |group| group.since)
}

/// Up to the limit or one more.
fn fill(
    rng: &mut Rng,
    block: &mut Block,
    limit: usize,
    count: fn(&Block) -> usize,
    add: fn(&mut Rng, &mut Block, u16),
) {
    let (since, most) = (last_since(block), limit + rng.below(2));
    while count(block) < most {
        add(rng, block, since);
    }
}

fn fill_groups(rng: &mut Rng, block: &mut Block) {
    fill(rng, block, 16, |block| block.groups.len(), |rng, block, since| block.groups.push(small(rng, since)));
}

fn fill_data(rng: &mut Rng, block: &mut Block) {
    fill(rng, block, 16, |block| block.data.len(), |rng, block, since| block.data.push(data_of(rng, since)));
}

/// 64 templates or 65, or two whose ids do not rise.
fn templates(rng: &mut Rng, book: &mut Book) {
    let last = book.templates.len() - 1;
    if rng.chance(50) {
        let id = book.templates[last].id;
        let again = Template { id: id.saturating_sub(rng.word(0, 1)), block: Block::default() };
        return book.templates.push(again);
    }
    let count = 64 + rng.below(2);
    let mut id = book.templates[last].id.min(60000);
    book.templates[last].id = id;
    while book.templates.len() < count {
        id += 1;
        book.templates.push(Template { id, block: Block::default() });
    }
}

/// The shortest message of a template or two as long as one may be, or an octet longer; sometimes beside another fault.
fn shortest(rng: &mut Rng, book: &mut Book) {
    if rng.chance(20) {
        one_block(rng, book);
    }
    for _ in 0..rng.pick(&[1, 1, 1, 2]) {
        lengthen(rng, book);
    }
}

/// One template so, sometimes with more groups or data in its root.
fn lengthen(rng: &mut Rng, book: &mut Book) {
    let number = rng.below(book.templates.len());
    let mut block = book.templates[number].block.clone();
    match rng.below(6) {
        0 => fill_groups(rng, &mut block),
        1 => fill_data(rng, &mut block),
        _ => (),
    }
    let others = book.shortest(&block) - usize::from(block.length);
    block.length = (LONGEST + rng.below(2) - others) as u16;
    book.templates[number].block = block;
}

/// A chain of groups down to depth four or five.
fn deepen(rng: &mut Rng, block: &mut Block, depth: usize) {
    let since = last_since(block);
    let mut chain = small(rng, since);
    for _ in depth + 1..4 + rng.below(2) {
        let mut outer = small(rng, since);
        outer.block.groups.push(chain);
        chain = outer;
    }
    block.groups.push(chain);
}

/// The declared length at the last field's end or one less, or as long as none may be.
fn lengths(rng: &mut Rng, block: &mut Block) {
    let end = block.fields.last().map_or(0, Field::end) as u16;
    block.length = rng.pick(&[end, end.saturating_sub(1), 65534, 65535]);
}

fn field(rng: &mut Rng, block: &mut Block) {
    if let Some(number) = block.fields.len().checked_sub(1) {
        let field = &mut block.fields[rng.between(0, number)];
        match rng.below(4) {
            0 => field.kind = rng.word(8, 9),
            1 => field.length = rng.pick(&[0, 1, 2, 1024, 1025]),
            2 => field.presence = rng.word(1, 2),
            _ => field.offset = field.offset.saturating_sub(1),
        }
        block.length = block.length.max(5000);
    }
}

/// One since a little lower or higher.
fn sinces(rng: &mut Rng, block: &mut Block) {
    let fields = block.fields.iter_mut().map(|field| &mut field.since);
    let groups = block.groups.iter_mut().map(|group| &mut group.since);
    let data = block.data.iter_mut().map(|data| &mut data.since);
    let mut all: Vec<&mut u16> = fields.chain(groups).chain(data).collect();
    if !all.is_empty() {
        let number = rng.below(all.len());
        let since = &mut *all[number];
        *since = if rng.chance(50) { since.saturating_add(1) } else { since.saturating_sub(1) };
    }
}

/// A list of the book, which has one then.
fn some_list(rng: &mut Rng, book: &mut Book) -> usize {
    if book.lists.is_empty() {
        add_list(rng, &mut book.lists);
    }
    rng.below(book.lists.len())
}

/// 64 numbers or 65, one or none, kind 1 or 2, a number that comes again or is one more, or an id that is so.
fn lists(rng: &mut Rng, book: &mut Book) {
    let number = some_list(rng, book);
    let before = number.checked_sub(1).map(|before| book.lists[before].id);
    let list = &mut book.lists[number];
    match rng.below(5) {
        0 => list.numbers = (0..(MOST + rng.below(2)) as u16).collect(),
        1 => list.numbers.truncate(rng.below(2)),
        2 => list.kind = rng.word(SET, SET + 1),
        3 => {
            let last = list.numbers[list.numbers.len() - 1];
            list.numbers.push(last.saturating_add(rng.word(0, 1)));
        }
        _ => list.id = before.unwrap_or(65534) + rng.word(0, 1),
    }
}

/// One more field, which names a list that it can have or only just cannot: by its type, by being an array, by the
/// highest bit of a set, or because the book lacks that list.
fn names(rng: &mut Rng, book: &mut Book) {
    let (number, kind) = (some_list(rng, book), rng.below(TYPES.len()) as u16);
    let list = &mut book.lists[number];
    if list.kind == SET {
        list.numbers = vec![8 * TYPES[usize::from(kind)].octets as u16 - rng.word(0, 1)];
    }
    let (list, length) = (list.id.saturating_add(rng.pick(&[0, 1, 1, 1, 1, 2])), rng.pick(&[1, 1, 1, 1, 2]));
    let number = rng.below(book.templates.len());
    let (block, _) = some_block(rng, &mut book.templates[number].block, 0);
    let (offset, since) = block.fields.last().map_or((0, 0), |last| (last.end() as u16, last.since));
    block.fields.push(Field { id: 1, kind, length, offset, presence: 0, since, list });
    block.length = block.length.max(offset + 8);
}
