//! The schema book as a tree, read from its octets: refusals 1 to 4. `rules` has 5 to 7.

use crate::{byte_order, dimension, refusal, rules, word, NameList, Refusal, LONGEST, NULL16};

#[derive(Clone, Debug, PartialEq, Eq)]
pub struct Book {
    pub schema: u16,
    pub version: u16,
    /// Of its messages, 0 or 1 if the head holds.
    pub byte_order: u16,
    /// How many numbers a group's dimension has, 2 or 4 if the head holds.
    pub dimension: u16,
    pub templates: Vec<Template>,
    pub lists: Vec<NameList>,
}

#[derive(Clone, Debug, PartialEq, Eq)]
pub struct Template {
    pub id: u16,
    pub block: Block,
}

#[derive(Clone, Debug, Default, PartialEq, Eq)]
pub struct Block {
    pub length: u16,
    pub fields: Vec<Field>,
    pub groups: Vec<Group>,
    pub data: Vec<Data>,
}

#[derive(Clone, Copy, Debug, PartialEq, Eq)]
pub struct Field {
    pub id: u16,
    pub kind: u16,
    pub length: u16,
    pub offset: u16,
    pub presence: u16,
    pub since: u16,
    /// 0, or the id of the field's list plus one.
    pub list: u16,
}

#[derive(Clone, Copy, Debug, PartialEq, Eq)]
pub struct Data {
    pub id: u16,
    pub since: u16,
}

#[derive(Clone, Debug, PartialEq, Eq)]
pub struct Group {
    pub id: u16,
    pub since: u16,
    pub block: Block,
}

const HEAD_WORDS: usize = 7;
const ROW_WORDS: usize = 3;
/// Of the deepest group; a root group's is 1.
pub(crate) const DEPTH: usize = 4;

impl Book {
    /// The book that the octets are, or the lowest number found in any template or list, and the first that has it.
    pub fn read(octets: &[u8]) -> Result<Book, Refusal> {
        if octets.len() % 2 != 0 || octets.len() < 8 || octets.len() > 8192 {
            return Err(refusal(1, 0));
        }
        let words: Vec<u16> = (0..octets.len() / 2).map(|i| word(octets, 2 * i)).collect();
        let contents = Contents::read(&words)?;
        let mut templates = Vec::new();
        for (number, row) in contents.templates.iter().enumerate() {
            let block = body(row.words).ok_or(refusal(4, number))?;
            templates.push(Template { id: row.id, block });
        }
        let mut lists = Vec::new();
        for (number, row) in contents.lists.iter().enumerate() {
            lists.push(NameList::read(row.id, row.words).ok_or(refusal(4, templates.len() + number))?);
        }
        let (schema, version, byte_order, dimension) = (words[0], words[1], words[5], words[6]);
        let book = Book { schema, version, byte_order, dimension, templates, lists };
        book.each(5, |block| rules::shape_holds(block, &book))?;
        book.each(6, |block| rules::sinces_hold(block, &book, None))?;
        book.each(7, |block| book.shortest(block) <= LONGEST)?;
        Ok(book)
    }

    fn each(&self, number: u64, holds: impl Fn(&Block) -> bool) -> Result<(), Refusal> {
        match self.templates.iter().position(|template| !holds(&template.block)) {
            Some(place) => Err(refusal(number, place)),
            None => Ok(()),
        }
    }

    pub fn template(&self, id: u16) -> Option<&Template> {
        self.templates.iter().find(|template| template.id == id)
    }

    /// The octets that the book is, good or not: counts, word numbers and all follow the tree.
    pub fn octets(&self) -> Vec<u8> {
        let templates = self.templates.iter().map(|template| (template.id, template.block.words()));
        let lists = self.lists.iter().map(|list| (list.id, list.words()));
        let bodies: Vec<(u16, Vec<u16>)> = templates.chain(lists).collect();
        let mut first = HEAD_WORDS + ROW_WORDS * bodies.len();
        let total = first + bodies.iter().map(|(_, body)| body.len()).sum::<usize>();
        let (templates, lists) = (self.templates.len() as u16, self.lists.len() as u16);
        let mut words = vec![self.schema, self.version, templates, total as u16, lists];
        words.extend([self.byte_order, self.dimension]);
        for (id, body) in &bodies {
            words.extend([*id, first as u16, body.len() as u16]);
            first += body.len();
        }
        words.extend(bodies.iter().flat_map(|(_, body)| body));
        words.iter().flat_map(|word| word.to_le_bytes()).collect()
    }
}

/// A row of the contents: an id, and the words of its body.
struct Row<'a> {
    id: u16,
    words: &'a [u16],
}

struct Contents<'a> {
    templates: Vec<Row<'a>>,
    lists: Vec<Row<'a>>,
}

impl<'a> Contents<'a> {
    /// Refusals 2 and 3. Lists come after templates, their rows as their bodies.
    fn read(words: &'a [u16]) -> Result<Contents<'a>, Refusal> {
        if words.len() < HEAD_WORDS {
            return Err(refusal(2, 0));
        }
        let (templates, lists) = (usize::from(words[2]), usize::from(words[4]));
        let start = HEAD_WORDS + ROW_WORDS * (templates + lists);
        let ids_hold = words[0] != NULL16 && words[1] != NULL16;
        let format_holds = words[5] <= byte_order::BIG && [dimension::TWO, dimension::FOUR].contains(&words[6]);
        let head_holds = usize::from(words[3]) == words.len() && ids_hold && format_holds;
        if !head_holds || !(1..=64).contains(&templates) || start > words.len() {
            return Err(refusal(2, 0));
        }
        let mut next = start;
        let mut rows = Vec::new();
        for row in words[HEAD_WORDS..start].chunks(ROW_WORDS) {
            let (id, first, end) = (row[0], usize::from(row[1]), usize::from(row[1]) + usize::from(row[2]));
            if id == NULL16 || first != next || end > words.len() {
                return Err(refusal(3, 0));
            }
            next = end;
            rows.push(Row { id, words: &words[first..end] });
        }
        let lists = rows.split_off(templates);
        let rise = |rows: &[Row]| rows.windows(2).all(|pair| pair[0].id < pair[1].id);
        if next != words.len() || !rise(&rows) || !rise(&lists) {
            return Err(refusal(3, 0));
        }
        Ok(Contents { templates: rows, lists })
    }
}

type Words<'a> = std::iter::Copied<std::slice::Iter<'a, u16>>;

/// A body is one block, and no words are left over.
fn body(words: &[u16]) -> Option<Block> {
    let mut words = words.iter().copied();
    let block = Block::read(&mut words, 0)?;
    words.next().is_none().then_some(block)
}

impl Block {
    /// The block of a group of this depth; the root's is 0.
    fn read(words: &mut Words, depth: usize) -> Option<Block> {
        let length = words.next()?;
        let fields = words.next().filter(|&count| count <= 64)?;
        let groups = words.next().filter(|&count| count <= 16)?;
        let data = words.next().filter(|&count| count <= 16)?;
        let fields = (0..fields).map(|_| Field::read(words)).collect::<Option<_>>()?;
        let data = (0..data).map(|_| Data::read(words)).collect::<Option<_>>()?;
        let groups = (0..groups).map(|_| Group::read(words, depth + 1)).collect::<Option<_>>()?;
        Some(Block { length, fields, groups, data })
    }

    fn words(&self) -> Vec<u16> {
        let counts = [self.fields.len(), self.groups.len(), self.data.len()];
        let mut words = vec![self.length];
        words.extend(counts.map(|count| count as u16));
        for field in &self.fields {
            words.extend([field.id, field.kind, field.length, field.offset]);
            words.extend([field.presence, field.since, field.list]);
        }
        for data in &self.data {
            words.extend([data.id, data.since]);
        }
        for group in &self.groups {
            words.extend([group.id, group.since]);
            words.extend(group.block.words());
        }
        words
    }
}

impl Field {
    fn read(words: &mut Words) -> Option<Field> {
        let (id, kind, length) = (words.next()?, words.next()?, words.next()?);
        let (offset, presence, since) = (words.next()?, words.next()?, words.next()?);
        Some(Field { id, kind, length, offset, presence, since, list: words.next()? })
    }
}

impl Data {
    fn read(words: &mut Words) -> Option<Data> {
        Some(Data { id: words.next()?, since: words.next()? })
    }
}

impl Group {
    fn read(words: &mut Words, depth: usize) -> Option<Group> {
        let (id, since) = (words.next()?, words.next()?);
        let block = Block::read(words, depth)?;
        let holds = depth <= DEPTH && !block.fields.is_empty();
        holds.then_some(Group { id, since, block })
    }
}
