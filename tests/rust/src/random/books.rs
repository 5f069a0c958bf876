//! Random books that keep every rule, and random legal extensions of them.

use super::lists;
use plain::byte_order::{BIG, LITTLE};
use plain::dimension::{FOUR, TWO};
use plain::{types::TYPES, Block, Book, Data, Field, Group, NameList, Rng, Template};

pub fn book(rng: &mut Rng) -> Book {
    let version = rng.pick(&[0, 0, 1, 1, 2, 3, 4, 6, 300, 65534]);
    let count = if rng.chance(2) { rng.between(8, 64) } else { rng.between(1, 3) };
    let (schema, byte_order, dimension) = (rng.word(0, 9), rng.word(LITTLE, BIG), rng.pick(&[TWO, FOUR]));
    let lists = lists::lists(rng);
    let mut book = Book { schema, version, byte_order, dimension, templates: Vec::new(), lists };
    for _ in 0..count {
        add_template(rng, &mut book);
    }
    book
}

/// A template with an id that the book lacks, where the order of ids has it.
fn add_template(rng: &mut Rng, book: &mut Book) {
    let id = if rng.chance(5) { rng.word(0, 65534) } else { rng.word(0, 90) };
    if let Err(at) = book.templates.binary_search_by_key(&id, |template| template.id) {
        let small = book.templates.len() > 3;
        let block = Sized { rng, small, book }.root();
        book.templates.insert(at, Template { id, block });
    }
}

/// Rising sinces from `least` to `greatest`.
fn sinces(rng: &mut Rng, count: usize, least: u16, greatest: u16) -> Vec<u16> {
    let mut sinces: Vec<u16> = (0..count).map(|_| rng.word(least, greatest)).collect();
    sinces.sort_unstable();
    sinces
}

/// The makers of blocks, of a book whose templates are many and small or few and not.
struct Sized<'a> {
    rng: &'a mut Rng,
    small: bool,
    book: &'a Book,
}

impl Sized<'_> {
    fn root(&mut self) -> Block {
        let mut block = Block::default();
        let (most, version) = (if self.small { 2 } else { 5 }, self.book.version);
        let fields = if !self.small && self.rng.chance(1) { 64 } else { self.rng.between(0, most) };
        for since in sinces(self.rng, fields, 0, version) {
            add_field(self.rng, &self.book.lists, &mut block, since);
        }
        let groups = if self.small { 0 } else { self.rng.pick(&[0, 0, 1, 1, 1, 2, 2, 3]) };
        for since in sinces(self.rng, groups, 0, version) {
            block.groups.push(self.group(since, 1));
        }
        let data = self.rng.pick(&[0, 0, 1, 1, 2, 3]);
        add_data(self.rng, &mut block, data, (0, version));
        block
    }

    /// Groups and data inside it are as old as it, or younger where dimensions count them.
    fn group(&mut self, since: u16, depth: usize) -> Group {
        let (mut block, version) = (Block::default(), self.book.version);
        add_field(self.rng, &self.book.lists, &mut block, since);
        let more = self.rng.pick(&[0, 0, 1, 1, 2, 3]);
        for since in sinces(self.rng, more, since, version) {
            add_field(self.rng, &self.book.lists, &mut block, since);
        }
        let youngest = if self.book.is_counted() { version } else { since };
        let inner = if depth < DEPTH { self.rng.pick(&[0, 0, 0, 1, 1, 2]) } else { 0 };
        for since in sinces(self.rng, inner, since, youngest) {
            block.groups.push(self.group(since, depth + 1));
        }
        let data = self.rng.pick(&[0, 0, 0, 1, 2]);
        add_data(self.rng, &mut block, data, (since, youngest));
        Group { id: id(self.rng), since, block }
    }
}

/// Of the deepest group.
const DEPTH: usize = 4;

fn id(rng: &mut Rng) -> u16 {
    rng.pick(&[1, 2, 44, 453, 65535])
}

pub fn data_of(rng: &mut Rng, since: u16) -> Data {
    Data { id: id(rng), since }
}

/// So many data after the block's last.
fn add_data(rng: &mut Rng, block: &mut Block, count: usize, (least, greatest): (u16, u16)) {
    let sinces = sinces(rng, count, least, greatest);
    block.data.extend(sinces.into_iter().map(|since| data_of(rng, since)));
}

/// A field after the block's last, often a text, sometimes with a gap before it or padding after it, and often with a
/// list that it can have.
pub fn add_field(rng: &mut Rng, lists: &[NameList], block: &mut Block, since: u16) {
    let kind = if rng.chance(10) { 0 } else { rng.below(TYPES.len()) as u16 };
    let array = kind == 0 && rng.chance(70) || kind == 2 && rng.chance(30);
    let length = match (array, rng.chance(3)) {
        (false, _) => 1,
        (true, false) => rng.word(2, 9),
        (true, true) => rng.pick(&[2, 16, 17, 255, 1024]),
    };
    let end = block.fields.last().map_or(0, Field::end) as u16;
    let offset = end + rng.pick(&[0, 0, 0, 1, 3]);
    let mut field = Field { id: id(rng), kind, length, offset, presence: rng.word(0, 1), since, list: 0 };
    field.list = lists::named(rng, lists, &field);
    block.fields.push(field);
    block.length = block.length.max(field.end() as u16) + rng.pick(&[0, 0, 0, 0, 1, 4]);
}

/// A book that legally extends the older one, whose version is below 65534.
pub fn extension(rng: &mut Rng, older: &Book) -> Book {
    let mut newer = older.clone();
    newer.version = rng.word(older.version + 1, older.version.saturating_add(3).min(65534));
    lists::extend(rng, &mut newer);
    let mut templates = newer.templates.clone();
    for template in &mut templates {
        Extender { rng, least: older.version + 1, newer: &newer }.block(&mut template.block, 0);
    }
    newer.templates = templates;
    if newer.templates.len() < 60 && rng.chance(30) {
        add_template(rng, &mut newer);
    }
    newer
}

struct Extender<'a> {
    rng: &'a mut Rng,
    /// The least since of what is added.
    least: u16,
    newer: &'a Book,
}

impl Extender<'_> {
    /// Adds fields, here and in the older groups. Groups and data are added to the root, and where dimensions count
    /// them to every block.
    fn block(&mut self, block: &mut Block, depth: usize) {
        for group in &mut block.groups {
            self.block(&mut group.block, depth + 1);
        }
        let fields = if block.fields.len() < 60 { self.rng.pick(&[0, 0, 1, 1, 2]) } else { 0 };
        for since in self.sinces(fields) {
            add_field(self.rng, &self.newer.lists, block, since);
        }
        block.length += self.rng.pick(&[0, 0, 0, 2]);
        if depth > 0 && !self.newer.is_counted() {
            return;
        }
        let groups = if depth < DEPTH { self.rng.pick(&[0, 0, 1, 2]) } else { 0 };
        for since in self.sinces(groups) {
            block.groups.push(self.group(since, depth + 1));
        }
        let data = self.rng.pick(&[0, 0, 1, 2]);
        add_data(self.rng, block, data, (self.least, self.newer.version));
    }

    fn sinces(&mut self, count: usize) -> Vec<u16> {
        sinces(self.rng, count, self.least, self.newer.version)
    }

    /// With groups and data in it only where dimensions count them.
    fn group(&mut self, since: u16, depth: usize) -> Group {
        if self.newer.is_counted() {
            return Sized { rng: self.rng, small: false, book: self.newer }.group(since, depth);
        }
        let mut block = Block::default();
        add_field(self.rng, &self.newer.lists, &mut block, since);
        if self.rng.chance(40) {
            let later = self.rng.word(since, self.newer.version);
            add_field(self.rng, &self.newer.lists, &mut block, later);
        }
        Group { id: id(self.rng), since, block }
    }
}
