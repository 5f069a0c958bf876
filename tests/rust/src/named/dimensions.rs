//! Books by how many numbers a group's dimension has, the head's seventh word, and dimensions of four: their counts,
//! and what is younger inside a group than the group.

use super::books::{self, a, field, fields, words, OCTET};
use super::byte_orders::listed;
use super::lists::{book, no};
use super::messages::{m, m_under_a, MINUS_5};
use super::writing::draft;
use super::{octets, with_word, Case, Expected};
use plain::dimension::{FOUR, TWO};
use plain::{refusal, Block, Book, Data, Draft, Field, Group, Record, Refusal, Template};

/// Where a book has its numbers of a dimension.
const DIMENSION: usize = 12;

pub fn cases() -> Vec<Case> {
    [head_cases(), since_cases(), m_cases(), version_cases(), order_cases(), written_cases()]
        .into_iter()
        .flatten()
        .collect()
}

/// The book with dimensions of four numbers.
pub fn four(book: Vec<u8>) -> Vec<u8> {
    with_word(&book, DIMENSION, FOUR)
}

/// A group of one octet, with these groups, and data of these sinces.
pub fn group(since: u16, groups: Vec<Group>, data: &[u16]) -> Group {
    let octet = Field { since, ..field(OCTET, 0, 0) };
    let data = data.iter().map(|&since| Data { id: 58, since }).collect();
    Group { id: 453, since, block: Block { groups, data, ..fields(1, vec![octet]) } }
}

/// A book whose template 1 is these groups.
pub fn of_groups(version: u16, dimension: u16, groups: Vec<Group>) -> Vec<u8> {
    let block = Block { groups, ..Block::default() };
    Book { dimension, ..books::book(version, vec![Template { id: 1, block }]) }.octets()
}

/// A group, and at version 1 a group and a data inside it.
pub fn older() -> Vec<u8> {
    of_groups(0, FOUR, vec![group(0, Vec::new(), &[])])
}

pub fn newer() -> Vec<u8> {
    of_groups(1, FOUR, vec![group(0, vec![group(1, Vec::new(), &[])], &[1])])
}

/// A message of template 1 and schema 7: one group, which begins at 12, and no data.
pub fn of_version(version: u16, rest: &str) -> Vec<u8> {
    let header = [0, 1, 7, version, 1, 0].into_iter().flat_map(u16::to_le_bytes);
    header.chain(octets(rest)).collect()
}

fn head_cases() -> Vec<Case> {
    let of_numbers = |numbers| with_word(&a(), DIMENSION, numbers);
    let body_later = |numbers| with_word(&of_numbers(numbers), 16, 11);
    vec![
        book("dimensions of two numbers: accepted", of_numbers(TWO), Ok(())),
        book("dimensions of four numbers: accepted", of_numbers(FOUR), Ok(())),
        book("dimensions of no numbers: 2", of_numbers(0), no(2, 0)),
        book("dimensions of one number: 2", of_numbers(1), no(2, 0)),
        book("dimensions of three numbers: 2", of_numbers(3), no(2, 0)),
        book("dimensions of five numbers: 2", of_numbers(5), no(2, 0)),
        book("dimensions of six numbers: 2", of_numbers(6), no(2, 0)),
        book("dimensions of 512 numbers, which is 2 turned: 2", of_numbers(512), no(2, 0)),
        book("dimensions of 65,535 numbers: 2", of_numbers(65535), no(2, 0)),
        book("dimensions of three numbers: 2 before 3", body_later(3), no(2, 0)),
        book("dimensions of four numbers, and a body that begins a word later: 3", body_later(FOUR), no(3, 0)),
        book("a head of dimensions of four numbers and no contents: 2", words(&[7, 0, 1, 7, 0, 0, FOUR]), no(2, 0)),
        book("a head without its last word: 2", words(&[7, 0, 1, 12, 0, 0, 1, 10, 2, 0, 0, 0]), no(2, 0)),
    ]
}

/// Inside a group since 1, at version 2.
fn since_cases() -> Vec<Case> {
    let inside = |dimension, groups, data: &[u16]| of_groups(2, dimension, vec![group(1, groups, data)]);
    let inner = |since| vec![group(since, Vec::new(), &[])];
    let falling = || vec![group(2, Vec::new(), &[]), group(1, Vec::new(), &[])];
    let late_field = Group { since: 1, ..group(2, Vec::new(), &[]) };
    vec![
        book("two numbers: data in a group as old as it", inside(TWO, Vec::new(), &[1, 1]), Ok(())),
        book("two numbers: data in a group younger than it: 6", inside(TWO, Vec::new(), &[2]), no(6, 0)),
        book("two numbers: a group in a group younger than it: 6", inside(TWO, inner(2), &[]), no(6, 0)),
        book("four numbers: data in a group as old as it, and younger", inside(FOUR, Vec::new(), &[1, 2]), Ok(())),
        book("four numbers: data in a group older than it: 6", inside(FOUR, Vec::new(), &[0, 1]), no(6, 0)),
        book("four numbers: data in a group since above the version: 6", inside(FOUR, Vec::new(), &[3]), no(6, 0)),
        book("four numbers: since of data in a group that falls: 6", inside(FOUR, Vec::new(), &[2, 1]), no(6, 0)),
        book("four numbers: a group in a group as old as it", inside(FOUR, inner(1), &[]), Ok(())),
        book("four numbers: a group in a group younger than it", inside(FOUR, inner(2), &[]), Ok(())),
        book("four numbers: a group in a group older than it: 6", inside(FOUR, inner(0), &[]), no(6, 0)),
        book("four numbers: a group in a group since above the version: 6", inside(FOUR, inner(3), &[]), no(6, 0)),
        book("four numbers: since of groups in a group that falls: 6", inside(FOUR, falling(), &[]), no(6, 0)),
        book(
            "four numbers: data older than its inner group: 6",
            inside(FOUR, vec![group(2, inner(2), &[1])], &[]),
            no(6, 0),
        ),
        book(
            "four numbers: a group older than its inner group: 6",
            inside(FOUR, vec![group(2, inner(1), &[])], &[]),
            no(6, 0),
        ),
        book("four numbers: a first field younger than its group: 6", of_groups(2, FOUR, vec![late_field]), no(6, 0)),
    ]
}

/// M with four numbers in its dimension, which stands at 20.
pub fn four_m() -> Vec<u8> {
    [&m()[..24], &[0; 4], &m()[24..]].concat()
}

fn four_m_listing() -> Vec<Record> {
    [&m_under_a()[..5], &[[2, 34, 2]]].concat()
}

fn m_cases() -> Vec<Case> {
    let with =
        |name, at, number, refused: Refusal| listed(name, four(a()), with_word(&four_m(), at, number), Err(refused));
    let cut = |name, length: usize| listed(name, four(a()), four_m()[..length].to_vec(), Err(refusal(16, 20)));
    vec![
        listed("M with four numbers under A with four", four(a()), four_m(), Ok(four_m_listing())),
        listed(
            "M under A with four numbers: the entries are taken for counts: 21",
            four(a()),
            m(),
            Err(refusal(21, 20)),
        ),
        listed(
            "M with four numbers under A: the counts are taken for the entries: 20",
            a(),
            four_m(),
            Err(refusal(20, 31)),
        ),
        cut("a dimension of four numbers that lacks its last octet: 16", 27),
        cut("a dimension of four numbers of which there are two: 16", 24),
        with("four numbers: entries of 65,535 octets: 17", 20, 65535, refusal(17, 20)),
        with("four numbers: 65,535 entries: 17", 22, 65535, refusal(17, 20)),
        with("four numbers: 65,535 groups: 17", 24, 65535, refusal(17, 20)),
        with("four numbers: 65,535 data: 17", 26, 65535, refusal(17, 20)),
        with("four numbers: 65,534 groups: 21", 24, 65534, refusal(21, 20)),
        with("four numbers: 65,534 data: 21", 26, 65534, refusal(21, 20)),
        with("four numbers: one group: 21", 24, 1, refusal(21, 20)),
        with("four numbers: one data: 21", 26, 1, refusal(21, 20)),
        with("four numbers: 256 groups: 21", 24, 256, refusal(21, 20)),
    ]
}

/// What the header's counts are to the root, a dimension's are to its group.
fn version_cases() -> Vec<Case> {
    let by = |name, version, rest, expected| listed(name, newer(), of_version(version, rest), expected);
    let wrong = |name, version, rest| by(name, version, rest, Err(refusal(21, 12)));
    let absent = vec![[4, 1, 0], [0, 5, 0], [3, 0, 0], [3, 0, 0]];
    let whole = vec![[4, 1, 0], [0, 5, 0], [4, 2, 0], [0, 6, 0], [0, 7, 0], [2, 33, 2]];
    let bare = vec![[4, 1, 0], [0, 5, 0], [4, 0, 0], [2, 31, 0]];
    let inner_wrong = "01 00 01 00 01 00 01 00 | 05 | 01 00 00 00 00 00 01 00 | 00 00";
    vec![
        by("version 0 of 1: what is younger in a group is absent", 0, "01 00 01 00 00 00 00 00 | 05", Ok(absent)),
        by("version 1 of 1: a group and a data in a group", 1, WHOLE, Ok(whole.clone())),
        by("version 2 of 1: the same", 2, WHOLE, Ok(whole)),
        by("version 2 of 1: an empty group and an empty data in a group", 2, BARE, Ok(bare)),
        by("version 0 of 1: no entries, no counts", 0, "01 00 00 00 00 00 00 00", Ok(vec![[4, 0, 0]])),
        by("version 1 of 1: no entries, the book's counts", 1, "01 00 00 00 01 00 01 00", Ok(vec![[4, 0, 0]])),
        by(
            "version 2 of 1: no entries, more than the book's counts",
            2,
            "01 00 00 00 07 00 09 00",
            Ok(vec![[4, 0, 0]]),
        ),
        wrong("version 0 of 1: a group that is younger: 21", 0, "01 00 01 00 01 00 00 00 | 05"),
        wrong("version 0 of 1: a data that is younger: 21", 0, "01 00 01 00 00 00 01 00 | 05"),
        wrong("version 1 of 1: a group less: 21", 1, "01 00 01 00 00 00 01 00 | 05 | 00 00"),
        wrong("version 1 of 1: a data less: 21", 1, "01 00 01 00 01 00 00 00 | 05 | 01 00 00 00 00 00 00 00"),
        wrong("version 1 of 1: a group more: 21", 1, "01 00 01 00 02 00 01 00 | 05"),
        wrong("version 1 of 1: a data more: 21", 1, "01 00 01 00 01 00 02 00 | 05"),
        wrong("version 2 of 1: a group less: 21", 2, "01 00 01 00 00 00 01 00 | 05 | 00 00"),
        wrong("version 2 of 1: a data less: 21", 2, "01 00 01 00 01 00 00 00 | 05 | 01 00 00 00 00 00 00 00"),
        wrong("version 0 of 1: no entries, a group that is younger: 21", 0, "01 00 00 00 01 00 00 00"),
        wrong("version 1 of 1: no entries, a group less: 21", 1, "01 00 00 00 00 00 01 00"),
        wrong("version 2 of 1: no entries, a data less: 21", 2, "01 00 00 00 01 00 00 00"),
        by("a data too many in an inner group: 21 at its dimension", 1, inner_wrong, Err(refusal(21, 21))),
    ]
}

/// A group of an entry: in it a group of two entries, and two octets.
pub const WHOLE: &str = "01 00 01 00 01 00 01 00 | 05 | 01 00 02 00 00 00 00 00 | 06 07 | 02 00 61 62";
const BARE: &str = "01 00 01 00 01 00 01 00 | 05 | 01 00 00 00 00 00 00 00 | 00 00";

/// At one dimension: 16, 17, 18, 21, and then the entries.
fn order_cases() -> Vec<Case> {
    let refused = |name, rest, number, place| listed(name, older(), of_version(0, rest), Err(refusal(number, place)));
    vec![
        refused("16 before 17: a cut dimension that holds 65535", "ff ff ff ff ff ff ff", 16, 12),
        refused("17 before 18: a block length under the need and a count of 65535", "00 00 01 00 ff ff 00 00", 17, 12),
        refused("17 before 21: a wrong count and one of 65535", "01 00 01 00 01 00 ff ff", 17, 12),
        refused("18 before 21: a block length under the need and a wrong count", "00 00 01 00 01 00 00 00", 18, 12),
        refused("21 before 16: a wrong count and no octet of the entry", "01 00 01 00 01 00 00 00", 21, 12),
        refused("16 at the entry: the counts hold and its octet is missing", "01 00 01 00 00 00 00 00", 16, 20),
    ]
}

fn written_cases() -> Vec<Case> {
    let exact = |name, book, draft: Draft, message: Vec<u8>| {
        let expected = Expected::Written(draft, message.len(), Ok(message));
        Case { name, book, message: Vec::new(), expected }
    };
    let no_entries = [[0, 1000, 0], [0, MINUS_5, 0], [4, 0, 0], [2, 34, 2]];
    let without = [&four_m()[..20], &octets("02 00 00 00 00 00 00 00 | 02 00 61 62")].concat();
    let whole = [[4, 1, 0], [0, 5, 0], [4, 2, 0], [0, 6, 0], [0, 7, 0], [2, 0, 2]];
    let short = draft(&four_m_listing(), &four_m());
    let refused = Expected::Written(short, 35, Err(refusal(55, 0)));
    vec![
        exact("writing M with four numbers", four(a()), draft(&four_m_listing(), &four_m()), four_m()),
        exact("writing a group without entries: eight octets", four(a()), draft(&no_entries, &four_m()), without),
        exact("writing the book's counts in each dimension", newer(), draft(&whole, b"ab"), of_version(1, WHOLE)),
        exact(
            "writing them without entries",
            newer(),
            draft(&[[4, 0, 0]], &[]),
            of_version(1, "01 00 00 00 01 00 01 00"),
        ),
        Case {
            name: "writing M with four numbers into 35 octets: 55",
            book: four(a()),
            message: Vec::new(),
            expected: refused,
        },
    ]
}
