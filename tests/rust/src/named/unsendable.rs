//! Templates that can be sent, and ones that never can, refusal 7: the header, the root block, a dimension for each of
//! the root's groups and two octets for each of its data, 65,535 octets together and 65,536.

use super::books::{self, enumeration, field, fields, DATA, OCTET};
use super::byte_orders::{big, listed};
use super::calls::Call;
use super::dimensions::group;
use super::lists::{book, no};
use super::longest::to_the_limit;
use super::messages::m;
use super::unwritten::refused;
use super::writing::draft;
use super::{with_word, Case, Expected};
use crate::readers::{Free, Plain, Reader, Stream};
use crate::report::same;
use plain::dimension::{FOUR, TWO};
use plain::{message::HEADER, refusal, Block, Book, Draft, Field, Group, Place, Record, Template, LONGEST};

pub fn cases() -> Vec<Case> {
    let all = [border_cases(), counted_cases(), place_cases(), order_cases(), call_cases(), lacking_cases()];
    all.into_iter().flatten().collect()
}

pub fn calls() -> [(&'static str, Call); 2] {
    [
        ("the longest template: written with nothing in it and read back; with an octet of data more: 55", of_data),
        ("the longest template of groups: written and read back; with an entry more: 55", of_entries),
    ]
}

const TOO_LONG: usize = LONGEST + 1;

/// A root block of such a length that it has so many octets with the header and so many others.
fn root(together: usize, others: usize) -> Block {
    Block { length: (together - HEADER - others) as u16, ..Block::default() }
}

fn with(groups: usize, data: usize, root: Block) -> Block {
    Block { groups: vec![group(0, Vec::new(), &[]); groups], data: vec![DATA; data], ..root }
}

/// A book of these templates, and dimensions of so many numbers.
fn of(dimension: u16, blocks: Vec<Block>) -> Book {
    let templates = blocks.into_iter().zip(1..).map(|(block, id)| Template { id, block }).collect();
    Book { dimension, ..books::book(0, templates) }
}

fn alone(dimension: u16, block: Block) -> Vec<u8> {
    of(dimension, vec![block]).octets()
}

/// Two names, and how many numbers a dimension has, how many groups and data the root, and how many octets these have.
type Border = (&'static str, &'static str, u16, usize, usize, usize);

const BORDERS: [Border; 12] = [
    ("a root block alone, 65,535 octets: accepted", "a root block alone, 65,536 octets: 7", TWO, 0, 0, 0),
    ("four numbers: a root block alone: accepted", "four numbers: a root block alone, an octet more: 7", FOUR, 0, 0, 0),
    ("65,535 octets with a group: accepted", "65,536 octets with a group: 7", TWO, 1, 0, 4),
    ("65,535 octets with 16 groups: accepted", "65,536 octets with 16 groups: 7", TWO, 16, 0, 64),
    ("four numbers: 65,535 octets with a group: accepted", "four numbers: 65,536 with a group: 7", FOUR, 1, 0, 8),
    ("four numbers: 65,535 with 16 groups: accepted", "four numbers: 65,536 with 16 groups: 7", FOUR, 16, 0, 128),
    ("65,535 octets with a data: accepted", "65,536 octets with a data: 7", TWO, 0, 1, 2),
    ("65,535 octets with 16 data: accepted", "65,536 octets with 16 data: 7", TWO, 0, 16, 32),
    ("four numbers: 65,535 with 16 data: accepted", "four numbers: 65,536 with 16 data: 7", FOUR, 0, 16, 32),
    ("65,535 octets with a group and a data: accepted", "65,536 with a group and a data: 7", TWO, 1, 1, 6),
    ("65,535 with 16 groups and 16 data: accepted", "65,536 with 16 groups and 16 data: 7", TWO, 16, 16, 96),
    ("four numbers: 65,535 with 16 of each: accepted", "four numbers: 65,536 with 16 of each: 7", FOUR, 16, 16, 160),
];

fn border_cases() -> Vec<Case> {
    let both = |(good, bad, dimension, groups, data, octets): Border| {
        let of_octets = |together| alone(dimension, with(groups, data, root(together, octets)));
        [book(good, of_octets(LONGEST), Ok(())), book(bad, of_octets(TOO_LONG), no(7, 0))]
    };
    BORDERS.into_iter().flat_map(both).collect()
}

/// What counts, and what does not.
fn counted_cases() -> Vec<Case> {
    let inner = || vec![group(0, Vec::new(), &[0; 16]); 16];
    let full = |dimension, octets, together| {
        alone(dimension, Block { groups: vec![group(0, inner(), &[0; 16])], ..root(together, octets) })
    };
    let long = || Group { block: fields(65534, vec![field(OCTET, 0, 0)]), ..group(0, Vec::new(), &[]) };
    let young = |together| {
        let block = Block { groups: vec![group(1, Vec::new(), &[])], ..root(together, 4) };
        books::book(1, vec![Template { id: 1, block }]).octets()
    };
    let of_length = |length| alone(TWO, fields(length, Vec::new()));
    vec![
        book("16 groups and 16 data inside a group count nothing: accepted", full(TWO, 4, LONGEST), Ok(())),
        book("the same, an octet more: 7", full(TWO, 4, TOO_LONG), no(7, 0)),
        book("four numbers: 16 of each inside a group count nothing: accepted", full(FOUR, 8, LONGEST), Ok(())),
        book("four numbers: the same, an octet more: 7", full(FOUR, 8, TOO_LONG), no(7, 0)),
        book(
            "a group's block of 65,534 octets counts nothing: accepted",
            alone(TWO, Block { groups: vec![long()], ..root(LONGEST, 4) }),
            Ok(()),
        ),
        book("a younger group counts: accepted", young(LONGEST), Ok(())),
        book("a younger group counts, an octet more: 7", young(TOO_LONG), no(7, 0)),
        book("65,535 octets, big-endian: accepted", big(alone(FOUR, with(1, 1, root(LONGEST, 10)))), Ok(())),
        book("65,536 octets, big-endian: 7", big(alone(FOUR, with(1, 1, root(TOO_LONG, 10)))), no(7, 0)),
        book("a root block of 65,530 octets: 7", of_length(65530), no(7, 0)),
        book("a root block of 65,534 octets: 7", of_length(65534), no(7, 0)),
        book("a root block of 65,535 octets: 5", of_length(65535), no(5, 0)),
    ]
}

/// A template that can never be sent, by its root block alone.
fn unsendable() -> Block {
    root(TOO_LONG, 0)
}

fn good() -> Block {
    root(LONGEST, 0)
}

fn place_cases() -> Vec<Case> {
    let at = |number: usize, count: usize| {
        let block = |template| if template == number { unsendable() } else { good() };
        of(TWO, (0..count).map(block).collect()).octets()
    };
    let two = of(TWO, vec![good(), unsendable(), unsendable()]).octets();
    vec![
        book("the first of two templates: 7 at 0", at(0, 2), no(7, 0)),
        book("the second of two templates: 7 at 1", at(1, 2), no(7, 1)),
        book("the second and the third of three templates: 7 at 1", two, no(7, 1)),
        book("the last of 64 templates: 7 at 63", at(63, 64), no(7, 63)),
        book("64 of the longest templates: accepted", at(64, 64), Ok(())),
    ]
}

/// The lowest number is told, whichever template has it.
fn order_cases() -> Vec<Case> {
    let by = |blocks| of(TWO, blocks).octets();
    let (type_nine, young) = (field(9, 0, 0), Field { since: 1, ..field(OCTET, 0, 0) });
    let five = || fields(8, vec![type_nine]);
    let six = || fields(8, vec![young]);
    let four = || Block { groups: vec![Group { id: 1, since: 0, block: Block::default() }], ..Block::default() };
    let also = |field| by(vec![Block { fields: vec![field], ..unsendable() }]);
    let of_lists =
        Book { lists: vec![enumeration(4, &[1]), enumeration(5, &[])], ..of(TWO, vec![unsendable(), good()]) };
    let later = with_word(&by(vec![unsendable()]), 16, 11);
    vec![
        book("7 in the first template, 6 in the last: 6 at 1", by(vec![unsendable(), six()]), no(6, 1)),
        book("6 in the first template, 7 in the last: 6 at 0", by(vec![six(), unsendable()]), no(6, 0)),
        book("7 in the first template, 5 in the last: 5 at 1", by(vec![unsendable(), five()]), no(5, 1)),
        book("5 in the first template, 7 in the last: 5 at 0", by(vec![five(), unsendable()]), no(5, 0)),
        book("7, 6 and 5, one in each template: 5 at 2", by(vec![unsendable(), six(), five()]), no(5, 2)),
        book("7 in the first template, 4 in the last: 4 at 1", by(vec![unsendable(), four()]), no(4, 1)),
        book("6 and 7 in one template: 6", also(young), no(6, 0)),
        book("5 and 7 in one template: 5", also(type_nine), no(5, 0)),
        book("7 in a template, 4 in the last list: 4 at 3", of_lists.octets(), no(4, 3)),
        book("7 in a template, and a body that begins a word later: 3", later, no(3, 0)),
    ]
}

/// Every call is refused by the book, before its message and its own arguments are looked at.
fn call_cases() -> Vec<Case> {
    let octets = || of(TWO, vec![good(), unsendable()]).octets();
    let seven = refusal(7, 1);
    let place = |steps| Place { steps, kind: 0, element: 0 };
    let case = |name, message, expected| Case { name, book: octets(), message, expected };
    let written = |name, draft: Draft, room| case(name, Vec::new(), Expected::Written(draft, room, Err(seven)));
    vec![
        listed("listing by a book with such a template: 7", octets(), m(), Err(seven)),
        listed("listing an empty message: 7 before 10", octets(), Vec::new(), Err(seven)),
        case("place: by a book with such a template: 7", m(), Expected::Place(place(Vec::new()), Err(seven))),
        case("place: of five steps: 7 before 30", m(), Expected::Place(place(vec![(0, 0); 5]), Err(seven))),
        written("writing the good template of such a book: 7", draft(&[], &[]), LONGEST),
        written("writing a template that it lacks: 7 before 50", Draft { template: 9, ..draft(&[], &[]) }, LONGEST),
        written("writing the template that can never be sent: 7", Draft { template: 2, ..draft(&[], &[]) }, 0),
    ]
}

/// A required field that there is nothing to write for, its list having only its null: 7 is not for that.
fn lacking_cases() -> Vec<Case> {
    let block = fields(1, vec![Field { list: 5, ..field(OCTET, 0, 0) }]);
    let octets = || Book { lists: vec![enumeration(4, &[255])], ..of(TWO, vec![block.clone()]) }.octets();
    let written = |name, record| refused(name, octets(), draft(&[record], &[]), LONGEST, 52, 0);
    vec![
        book("a list with nothing but the null of a required field: accepted", octets(), Ok(())),
        written("a list with nothing but the null of a required field: 52 for that number", [0, 255, 0]),
        written("a list with nothing but the null of a required field: 52 for another", [0, 7, 0]),
        written("a list with nothing but the null of a required field: 52 for null", [1, 0, 0]),
    ]
}

/// Groups without entries, and data without octets.
fn nothing(groups: usize, data: usize) -> Vec<Record> {
    [vec![[4, 0, 0]; groups], vec![[2, 0, 0]; data]].concat()
}

/// By either byte order. What is written is listed again; data start where the octets before them end.
fn goes_and_comes_back(book: Vec<u8>, records: &[Record], longer: &Draft) -> Result<(), String> {
    let data = records.iter().filter(|record| record[0] == 2).count();
    let starts = (0..data).map(|after| [2, (LONGEST - 2 * (data - 1 - after)) as u64, 0]);
    let listing: Vec<u64> = records[..records.len() - data].iter().copied().chain(starts).flatten().collect();
    for book in [big(book.clone()), book] {
        to_the_limit(&book, &draft(records, &[]), longer)?;
        let mut message = vec![0; LONGEST];
        same("plain", Plain.write(&book, &draft(records, &[]), &mut message), Ok(LONGEST))?;
        let readers: [&dyn Reader; 3] = [&Plain, &Free, &Stream];
        for reader in readers {
            let mut room = vec![0; listing.len()];
            same(reader.name(), reader.list(&book, &message, &mut room), Ok(records.len() as u64))?;
            same(reader.name(), &room, &listing)?;
        }
    }
    Ok(())
}

fn of_data() -> Result<(), String> {
    let cases = [(TWO, 0, 1, 2), (TWO, 1, 1, 6), (TWO, 16, 16, 96), (FOUR, 1, 1, 10), (FOUR, 16, 16, 160)];
    for (dimension, groups, data, octets) in cases {
        let records = nothing(groups, data);
        let mut longer = draft(&records, b"x");
        *longer.listing.last_mut().expect("a number") = 1;
        let book = alone(dimension, with(groups, data, root(LONGEST, octets)));
        goes_and_comes_back(book, &records, &longer)?;
    }
    Ok(())
}

/// The last group has one entry.
fn of_entries() -> Result<(), String> {
    for (dimension, groups, octets) in [(TWO, 1, 4), (TWO, 16, 64), (FOUR, 1, 8), (FOUR, 16, 128)] {
        let records = nothing(groups, 0);
        let longer = [&nothing(groups - 1, 0)[..], &[[4, 1, 0], [0, 7, 0]]].concat();
        let book = alone(dimension, with(groups, 0, root(LONGEST, octets)));
        goes_and_comes_back(book, &records, &draft(&longer, &[]))?;
    }
    Ok(())
}
