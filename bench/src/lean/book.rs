//! The book in flat tables, and what a message's version has of a block.

use super::numbers::Field;
use super::NULL16;

/// For big-endian messages or for little-endian ones, with counted dimensions or without.
pub struct Book<const BIG: bool, const COUNTED: bool> {
    pub tables: Tables,
}

/// What is the same for all of these.
pub struct Tables {
    pub schema: u16,
    pub version: u16,
    /// The templates' ids. They rise.
    ids: Vec<u16>,
    /// The templates' own, in the order of their ids; then those of groups, a block's groups side by side.
    blocks: Vec<Block>,
    fields: Vec<Field>,
    /// The sinces of data.
    data: Vec<u16>,
}

#[derive(Clone, Copy, Default)]
pub struct Block {
    pub length: usize,
    /// That of the group whose block it is, and that group's depth.
    pub since: u16,
    pub depth: u8,
    /// Has neither groups nor data, so that entries follow each other at the block's length.
    pub leaf: bool,
    /// The need at the book's own version.
    need: usize,
    fields: Span,
    groups: Span,
    data: Span,
}

/// Part of a table.
#[derive(Clone, Copy, Default)]
struct Span {
    first: usize,
    end: usize,
}

impl Span {
    fn of<T>(self, table: &[T]) -> &[T] {
        &table[self.first..self.end]
    }

    fn len(self) -> usize {
        self.end - self.first
    }
}

impl<const BIG: bool, const COUNTED: bool> Book<BIG, COUNTED> {
    /// Of a book that was accepted, and has this byte order and such dimensions.
    pub fn compiled(tree: &plain::Book) -> Book<BIG, COUNTED> {
        Book { tables: Tables::compiled(tree) }
    }
}

impl Tables {
    fn compiled(tree: &plain::Book) -> Tables {
        let ids: Vec<u16> = tree.templates.iter().map(|template| template.id).collect();
        let blocks = vec![Block::default(); ids.len()];
        let mut tables =
            Tables { schema: tree.schema, version: tree.version, ids, blocks, fields: Vec::new(), data: Vec::new() };
        for (number, template) in tree.templates.iter().enumerate() {
            tables.compile(tree, number, &template.block, (0, 0));
        }
        tables
    }

    fn compile(&mut self, tree: &plain::Book, number: usize, block: &plain::Block, (since, depth): (u16, u8)) {
        let (fields, data, groups) = (self.fields.len(), self.data.len(), self.blocks.len());
        self.fields.extend(block.fields.iter().map(|field| Field::compiled(field, tree.list_of(field))));
        self.data.extend(block.data.iter().map(|data| data.since));
        self.blocks.resize(groups + block.groups.len(), Block::default());
        self.blocks[number] = Block {
            length: block.length.into(),
            since,
            depth,
            leaf: block.groups.is_empty() && block.data.is_empty(),
            need: block.fields.last().map_or(0, plain::Field::end),
            fields: Span { first: fields, end: self.fields.len() },
            groups: Span { first: groups, end: self.blocks.len() },
            data: Span { first: data, end: self.data.len() },
        };
        for (at, group) in block.groups.iter().enumerate() {
            self.compile(tree, groups + at, &group.block, (group.since, depth + 1));
        }
    }

    pub fn template(&self, id: u16) -> Option<&Block> {
        self.ids.binary_search(&id).ok().map(|number| &self.blocks[number])
    }

    pub fn fields(&self, block: &Block) -> &[Field] {
        block.fields.of(&self.fields)
    }

    pub fn groups(&self, block: &Block) -> &[Block] {
        block.groups.of(&self.blocks)
    }

    pub fn data(&self, block: &Block) -> &[u16] {
        block.data.of(&self.data)
    }
}

/// A book as a version has it. Sinces never fall, so that what is present comes first.
#[derive(Clone, Copy)]
pub struct View<'a> {
    pub book: &'a Tables,
    version: u16,
    /// Nothing in the book is younger.
    whole: bool,
}

impl<'a> View<'a> {
    pub fn new(book: &'a Tables, version: u16) -> View<'a> {
        View { book, version, whole: version >= book.version }
    }

    pub fn fields(&self, block: &Block) -> &'a [Field] {
        let fields = self.book.fields(block);
        if self.whole {
            return fields;
        }
        &fields[..fields.partition_point(|field| field.since <= self.version)]
    }

    pub fn groups(&self, block: &Block) -> &'a [Block] {
        let groups = self.book.groups(block);
        if self.whole {
            return groups;
        }
        &groups[..groups.partition_point(|group| group.since <= self.version)]
    }

    /// How many.
    pub fn data(&self, block: &Block) -> usize {
        let data = self.book.data(block);
        if self.whole {
            return data.len();
        }
        data.partition_point(|&since| since <= self.version)
    }

    /// How many groups and data are present.
    #[inline(always)]
    pub fn counts(&self, block: &Block) -> (usize, usize) {
        if self.whole {
            return (block.groups.len(), block.data.len());
        }
        self.older_counts(block)
    }

    #[inline(never)]
    fn older_counts(&self, block: &Block) -> (usize, usize) {
        (self.groups(block).len(), self.data(block))
    }

    /// How many of the wire's groups or data are none of the known ones, which only a later version has. Nothing where
    /// their number is wrong.
    #[inline(always)]
    pub fn surplus(&self, count: usize, known: usize) -> Option<usize> {
        let most = if self.version > self.book.version { usize::from(NULL16) } else { 0 };
        count.checked_sub(known).filter(|&surplus| surplus <= most)
    }

    pub fn need(&self, block: &Block) -> usize {
        if self.whole {
            return block.need;
        }
        self.fields(block).last().map_or(0, Field::end)
    }
}
