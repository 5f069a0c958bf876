//! Books that are prepared: every room, the largest books, those that are refused, and null pointers.

use super::books::{a, b, enumeration, field, fields, nested, of, set, with_lists, DATA, OCTET};
use super::byte_orders::big;
use super::calls::Call;
use super::dimensions::{four, newer};
use super::{books, borders, byte_orders, dimensions, lists, named_lists, unsendable, Case};
use crate::raw;
use crate::readers::own;
use crate::report::same;
use crate::rooms;
use plain::{refusal, Block, Book, Field, Group, NameList, Refusal, Template};
use siphonbard::ffi::PREPARED_MOST;

pub fn calls() -> [(&'static str, Call); 5] {
    [
        ("prepare: into every room from none to enough; where it is too small, 40 at the need", every_room),
        ("prepare: the largest books, within 8,260 numbers", largest),
        ("prepare: the same numbers each time", same_numbers),
        ("prepare: books that are refused by 1 to 7, as by check_book", refused),
        ("C: prepare with null pointers", null_pointers),
    ]
}

/// What the crate has prepared the book to, in a room of zeros.
fn numbers(book: &[u8]) -> Result<Vec<u64>, Refusal> {
    siphonbard::Book::checked(book).map(|book| book.numbers().to_vec()).map_err(own)
}

/// Rooms are full of a pattern before the call, and not of zeros: what is not filled is seen.
fn prepares(book: &[u8], sizes: impl IntoIterator<Item = usize>) -> Result<(), String> {
    let numbers = numbers(book);
    let stored = numbers.as_deref().map_err(|refused| *refused);
    sizes.into_iter().try_for_each(|size| rooms::prepared(book, stored, size))
}

fn every_room() -> Result<(), String> {
    let of_data = of(Block { data: vec![DATA; DATAS], ..Block::default() });
    let listed = Field { list: 3, ..field(OCTET, 0, 0) };
    let of_lists = with_lists(&[set(2, &[0, 7]), enumeration(9, &[65, 66])], fields(1, vec![listed]));
    for book in [a(), big(a()), four(a()), newer(), b(), of(Block::default()), of(nested(4)), of_data, of_lists] {
        let need = numbers(&book).map_err(|refused| format!("{refused:?}"))?.len();
        prepares(&book, 0..=need + 4)?;
        same("a null room", raw::counted(raw::prepare_nowhere(&book)), Err(refusal(40, need)))?;
    }
    Ok(())
}

/// The most octets of a book, templates of it, and fields, groups and data of a block.
const OCTETS: usize = 8192;
const TEMPLATES: usize = 64;
const FIELDS: usize = 64;
const GROUPS: usize = 16;
const DATAS: usize = 16;

/// Octets of a book's head.
const HEAD: usize = 14;
/// Words of a list besides its numbers: its row in the contents, and its kind.
const LIST: usize = 4;

/// The templates of a book, and the octets that are left for more.
struct Filling {
    templates: Vec<Template>,
    left: usize,
}

impl Filling {
    /// As many of this block as there may be.
    fn templates(&mut self, block: &Block) {
        let octets = of(block.clone()).len() - HEAD;
        while self.templates.len() < TEMPLATES && self.left >= octets {
            self.templates.push(Template { id: self.templates.len() as u16, block: block.clone() });
            self.left -= octets;
        }
    }

    /// In each template as many as there may be, of so many octets.
    fn elements(&mut self, octets: usize, most: usize, count: fn(&Block) -> usize, push: fn(&mut Block)) {
        for Template { block, .. } in &mut self.templates {
            while count(block) < most && self.left >= octets {
                push(block);
                self.left -= octets;
            }
        }
    }
}

/// As many templates of this block as there may be in a book; then as many groups of one field in them, templates
/// without elements, fields and data; and a list of what is left.
fn full(block: &Block) -> Vec<u8> {
    let mut filling = Filling { templates: Vec::new(), left: OCTETS - HEAD - 2 * (LIST + 1) };
    filling.templates(block);
    filling.elements(26, GROUPS, |block| block.groups.len(), |block| block.groups.push(group(nested(0))));
    filling.templates(&Block::default());
    filling.elements(14, FIELDS, |block| block.fields.len(), push_field);
    filling.elements(4, DATAS, |block| block.data.len(), |block| block.data.push(DATA));
    Book { lists: vec![numbered(0, 1 + filling.left / 2)], ..books::book(0, filling.templates) }.octets()
}

/// A list of so many numbers.
fn numbered(id: usize, numbers: usize) -> NameList {
    enumeration(id as u16, &(0..numbers as u16).collect::<Vec<_>>())
}

/// A template without elements, and for the rest lists of so many numbers; what is left is the last one's, or is added
/// to the first.
fn full_of_lists(numbers: usize) -> Vec<u8> {
    let words = (OCTETS - of(Block::default()).len()) / 2;
    let mut sizes = vec![numbers; words / (LIST + numbers)];
    match words % (LIST + numbers) {
        left if left > LIST => sizes.push(left - LIST),
        left => sizes[0] += left,
    }
    let lists: Vec<NameList> = sizes.into_iter().enumerate().map(|(id, size)| numbered(id, size)).collect();
    with_lists(&lists, Block::default())
}

fn push_field(block: &mut Block) {
    block.fields.push(field(OCTET, block.length, 0));
    block.length += 1;
}

fn group(block: Block) -> Group {
    Group { id: 453, since: 0, block }
}

fn largest() -> Result<(), String> {
    let octet_fields = |count| fields(count, (0..count).map(|offset| field(OCTET, offset, 0)).collect());
    let grouped = |count, block| Block { groups: vec![group(block); count], ..nested(0) };
    let with_data = |block| Block { data: vec![DATA; DATAS], ..block };
    let blocks = [
        Block::default(),
        octet_fields(1),
        octet_fields(64),
        with_data(Block::default()),
        nested(4),
        grouped(10, octet_fields(64)),
        grouped(16, with_data(nested(0))),
        grouped(16, grouped(16, nested(0))),
        grouped(4, grouped(4, grouped(4, grouped(2, nested(0))))),
    ];
    for book in blocks.iter().map(full).chain([1, 63].map(full_of_lists)) {
        let need = numbers(&book).map_err(|refused| format!("{refused:?}"))?.len();
        same("octets", book.len(), OCTETS)?;
        same("numbers", need <= PREPARED_MOST, true)?;
        prepares(&book, (0..need).step_by(499).chain([need - 1, need, need + 1, PREPARED_MOST]))?;
    }
    Ok(())
}

/// The named books, good and bad.
fn book_cases() -> impl Iterator<Item = Case> {
    let by_lists = [lists::cases(), named_lists::cases()];
    let by_format = [byte_orders::cases(), dimensions::cases()];
    [books::cases(), borders::cases(), unsendable::cases()].into_iter().chain(by_lists).chain(by_format).flatten()
}

fn same_numbers() -> Result<(), String> {
    for Case { name, book, .. } in book_cases() {
        same(name, numbers(&book), numbers(&book))?;
        if let Ok(prepared) = siphonbard::Book::checked(&book) {
            same(name, prepared.clone().numbers(), prepared.numbers())?;
        }
    }
    Ok(())
}

/// Whatever the room.
fn refused() -> Result<(), String> {
    let mut seen = Vec::new();
    for Case { name, book, .. } in book_cases() {
        if let Err(refused) = siphonbard::check_book(&book).map_err(own) {
            seen.push(refused.number);
            same(name, numbers(&book), Err(refused))?;
            prepares(&book, [0, 1, book.len(), PREPARED_MOST])?;
        }
    }
    same("refusals", (1..=7).filter(|number| !seen.contains(number)).collect(), Vec::new())
}

fn null_pointers() -> Result<(), String> {
    let mut room = [7; 3];
    same("book", raw::counted(raw::prepare_null_book(&mut room)), Err(refusal(1, 0)))?;
    same("room", room, [7; 3])?;
    same("book and room", raw::counted(raw::prepare_nowhere(&[])), Err(refusal(1, 0)))
}
