//! Random name lists, such as fields can have and such as none can, and values beside them.

use super::listings::number;
use plain::lists::{ENUMERATION, SET};
use plain::{types::Type, Block, Book, Field, NameList, Rng};

/// The most numbers of a list.
pub const MOST: usize = 64;

/// Some, or none.
pub fn lists(rng: &mut Rng) -> Vec<NameList> {
    let mut lists = Vec::new();
    for _ in 0..rng.pick(&[0, 1, 1, 2, 3, 4, 6]) {
        add_list(rng, &mut lists);
    }
    lists
}

/// A list with an id that the others lack, where the order of ids has it.
pub fn add_list(rng: &mut Rng, lists: &mut Vec<NameList>) {
    let id = if rng.chance(5) { rng.pick(&[0, 65534]) } else { rng.word(0, 90) };
    if let Err(at) = lists.binary_search_by_key(&id, |list| list.id) {
        let kind = rng.word(ENUMERATION, SET);
        lists.insert(at, NameList { id, kind, numbers: numbers(rng, kind) });
    }
}

/// For a list of the kind.
fn numbers(rng: &mut Rng, kind: u16) -> Vec<u16> {
    let mut numbers = if kind == ENUMERATION { values(rng) } else { bits(rng) };
    numbers.sort_unstable();
    numbers.dedup();
    numbers.truncate(MOST);
    numbers
}

/// Near each other or not; among them the borders of the types that have them, and numbers that these cannot hold.
fn values(rng: &mut Rng) -> Vec<u16> {
    let (least, greatest) = rng.pick(&[(60, 75), (0, 9), (25, 135), (0, 255), (240, 270), (0, 65535)]);
    let count = rng.pick(&[1, 1, 2, 3, 5, 9, 90]);
    let mut values: Vec<u16> = (0..count).map(|_| rng.word(least, greatest)).collect();
    while rng.chance(30) {
        values.push(rng.pick(&[0, 31, 32, 126, 127, 254, 255, 256, 65534, 65535]));
    }
    values
}

/// Those of a type; rarely some that none has.
fn bits(rng: &mut Rng) -> Vec<u16> {
    let (width, percent) = (rng.pick(&[8, 8, 16, 32, 64, 64, 80]), rng.pick(&[20, 50, 90, 100]));
    let mut bits: Vec<u16> = (0..width).filter(|_| rng.chance(percent)).collect();
    bits.push(rng.word(0, width - 1));
    bits
}

/// The word by which the field names a list that it can have, or 0.
pub fn named(rng: &mut Rng, lists: &[NameList], field: &Field) -> u16 {
    let fitting: Vec<u16> = lists.iter().filter(|list| list.fits(field)).map(|list| list.id + 1).collect();
    if fitting.is_empty() || rng.chance(25) {
        return 0;
    }
    rng.pick(&fitting)
}

/// What a legal extension may do to the lists: those of fields gain numbers, wherever these stand in the order; others
/// may go, and new ones come.
pub fn extend(rng: &mut Rng, book: &mut Book) {
    let fields: Vec<Field> = book.templates.iter().flat_map(|template| all_fields(&template.block)).collect();
    let users = |list: &NameList| fields.iter().copied().filter(|field| field.list == list.id + 1).collect();
    book.lists.retain(|list| !Vec::is_empty(&users(list)) || rng.chance(60));
    for list in &mut book.lists {
        if rng.chance(60) {
            grow(rng, list, &users(list));
        }
    }
    if rng.chance(30) {
        add_list(rng, &mut book.lists);
    }
}

fn all_fields(block: &Block) -> Vec<Field> {
    let inner = block.groups.iter().flat_map(|group| all_fields(&group.block));
    block.fields.iter().copied().chain(inner).collect()
}

/// Gains such numbers as all fields can have whose list it is.
fn grow(rng: &mut Rng, list: &mut NameList, users: &[Field]) {
    for number in numbers(rng, list.kind) {
        let mut grown = list.clone();
        if let Err(at) = grown.numbers.binary_search(&number) {
            grown.numbers.insert(at, number);
        }
        if grown.numbers.len() <= MOST && users.iter().all(|field| grown.fits(field)) {
            *list = grown;
        }
    }
}

/// A value in the type's range that the list has. An enumeration may have none.
pub fn listed(rng: &mut Rng, kind: &Type, list: Option<&NameList>) -> Option<i128> {
    let list = match list {
        Some(list) => list,
        None => return Some(number(rng, kind)),
    };
    if list.kind == ENUMERATION {
        let values = list.numbers.iter().map(|&value| i128::from(value));
        let values: Vec<i128> = values.filter(|&value| kind.holds(value)).collect();
        return (!values.is_empty()).then(|| rng.pick(&values));
    }
    let all = list.numbers.iter().fold(0, |all, &bit| all | 1u64 << bit);
    let some = match rng.below(4) {
        0 => 0,
        1 => all,
        _ => all & rng.draw(),
    };
    let less = if i128::from(some) == kind.null { some & (some - 1) } else { some };
    Some(less.into())
}

/// One of the list's values or next to one, or some of its bits and another: listed or not, in range or not.
pub fn beside(rng: &mut Rng, kind: &Type, list: Option<&NameList>) -> i128 {
    match list {
        Some(list) if list.kind == ENUMERATION => i128::from(rng.pick(&list.numbers)) + rng.pick(&[-1, 0, 1]),
        _ => listed(rng, kind, list).unwrap_or(0) ^ 1 << rng.below(8 * kind.octets),
    }
}
