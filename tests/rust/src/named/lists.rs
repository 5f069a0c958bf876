//! Books with name lists, and the verdict on each: the head, the contents and the lists themselves, refusals 2 to 4.

use super::books::{self, enumeration, field, fields, of, set, with_lists, words, OCTET};
use super::{with_word, Case, Expected};
use plain::{refusal, Block, Book, Field, Group, NameList, Refusal, Template};

pub fn cases() -> Vec<Case> {
    [head_cases(), contents_cases(), body_cases(), order_cases(), unused_cases()].into_iter().flatten().collect()
}

pub fn book(name: &'static str, book: Vec<u8>, verdict: Result<(), Refusal>) -> Case {
    Case { name, book, message: Vec::new(), expected: Expected::Book(verdict) }
}

pub fn no(number: u64, place: usize) -> Result<(), Refusal> {
    Err(refusal(number, place))
}

/// The head's words: schema id, version, templates, words, lists, byte order, numbers of a dimension. A row's: id,
/// first word, words.
fn head_cases() -> Vec<Case> {
    let fitting = words(&[7, 0, 1, 16, 2, 0, 2, 1, 16, 0, 4, 16, 0, 5, 16, 0]);
    let cut = with_word(&fitting[..30], 6, 15);
    let none = of(Block::default());
    vec![
        book("a head of 8 octets: 2", words(&[7, 0, 1, 4]), no(2, 0)),
        book("a head of 10 octets: 2", words(&[7, 0, 1, 5, 0]), no(2, 0)),
        book("a head of 12 octets: 2", words(&[7, 0, 1, 6, 0, 0]), no(2, 0)),
        book("a head of 14 octets and no contents: 2", words(&[7, 0, 1, 7, 0, 0, 2]), no(2, 0)),
        book("a head, a row and a body, 28 octets: accepted", none.clone(), Ok(())),
        book("rows of two lists that just fit: not 2 but 4", fitting, no(4, 0)),
        book("rows of two lists that lack a word: 2", cut, no(2, 0)),
        book("65,535 lists, whose rows do not wrap: 2", with_word(&none, 8, 65535), no(2, 0)),
        book("21,844 lists, whose rows do not wrap: 2", with_word(&none, 8, 21844), no(2, 0)),
        book("a list that the head does not count: 3", with_word(&one_list(), 8, 0), no(3, 0)),
    ]
}

/// A template without elements, and these lists.
fn of_lists(lists: &[NameList]) -> Vec<u8> {
    with_lists(lists, Block::default())
}

/// Words of the head 0 to 6, of the template's row 7 to 9, of the list's 10 to 12, of the template's body 13 to 16, of
/// the list's 17 to 19.
fn one_list() -> Vec<u8> {
    of_lists(&[enumeration(4, &[65, 66])])
}

fn contents_cases() -> Vec<Case> {
    let one = one_list();
    let ids = |first, second| of_lists(&[enumeration(first, &[1]), set(second, &[1])]);
    let longer = with_word(&[&one[..], &[0, 0]].concat(), 6, 21);
    let list_first = words(&[7, 0, 1, 20, 1, 0, 2, 1, 16, 4, 4, 13, 3, 0, 65, 66, 0, 0, 0, 0]);
    vec![
        book("a book with a list", one.clone(), Ok(())),
        book("list id 65534: accepted", of_lists(&[set(65534, &[1])]), Ok(())),
        book("list id 65535: 3", of_lists(&[set(65535, &[1])]), no(3, 0)),
        book("list ids that rise by one: accepted", ids(4, 5), Ok(())),
        book("list ids that stay: 3", ids(4, 4), no(3, 0)),
        book("list ids that fall: 3", ids(4, 3), no(3, 0)),
        book("a list id that is a template's: accepted", ids(1, 2), Ok(())),
        book("a list id below a template's: accepted", ids(0, 2), Ok(())),
        book("a list that begins a word later: 3", with_word(&one, 22, 18), no(3, 0)),
        book("a list that begins a word earlier: 3", with_word(&one, 22, 16), no(3, 0)),
        book("a list that ends past the book: 3", with_word(&one, 24, 4), no(3, 0)),
        book("a list that ends before the book does: 3", with_word(&one, 24, 2), no(3, 0)),
        book("a list of 65,535 words, whose end does not wrap: 3", with_word(&one, 24, 65535), no(3, 0)),
        book("a word after the last list: 3", longer, no(3, 0)),
        book("a list before a template: 3", list_first, no(3, 0)),
    ]
}

/// A list of these words, the second of two, after two templates: so its fault is at 3.
fn second_of_two(body: &[u16]) -> Vec<u8> {
    let head = [7, 0, 2, 29 + body.len() as u16, 2, 0, 2];
    let rows = [1, 19, 4, 2, 23, 4, 4, 27, 2, 9, 29, body.len() as u16];
    words(&[&head[..], &rows, &[0; 8], &[0, 5], body].concat())
}

fn body_cases() -> Vec<Case> {
    let long = |count: u16| second_of_two(&(0..=count).collect::<Vec<_>>());
    vec![
        book("a list without words: 4 at templates plus position", second_of_two(&[]), no(4, 3)),
        book("an enumeration without numbers: 4", second_of_two(&[0]), no(4, 3)),
        book("a set without numbers: 4", second_of_two(&[1]), no(4, 3)),
        book("an enumeration of one number: accepted", second_of_two(&[0, 0]), Ok(())),
        book("a set of one number: accepted", second_of_two(&[1, 0]), Ok(())),
        book("a list of kind 2: 4", second_of_two(&[2, 0]), no(4, 3)),
        book("a list of kind 65535: 4", second_of_two(&[65535, 0]), no(4, 3)),
        book("a list of 64 numbers: accepted", long(64), Ok(())),
        book("a list of 65 numbers: 4", long(65), no(4, 3)),
        book("a list whose numbers rise by one: accepted", second_of_two(&[0, 65534, 65535]), Ok(())),
        book("a list whose numbers stay: 4", second_of_two(&[0, 7, 7]), no(4, 3)),
        book("a list whose numbers fall: 4", second_of_two(&[1, 7, 6]), no(4, 3)),
        book("a list whose last numbers fall: 4", second_of_two(&[1, 1, 2, 3, 2]), no(4, 3)),
        book("a list whose first numbers stay: 4", second_of_two(&[0, 0, 0, 1]), no(4, 3)),
    ]
}

const EMPTY: &[u16] = &[];

/// Two templates, the first of one field, and lists with these numbers.
fn faults(first: Field, second: Block, lists: &[&[u16]]) -> Vec<u8> {
    let first = Template { id: 1, block: fields(8, vec![first]) };
    let lists = lists.iter().zip(4..).map(|(numbers, id)| enumeration(id, numbers)).collect();
    Book { lists, ..books::book(0, vec![first, Template { id: 2, block: second }]) }.octets()
}

fn order_cases() -> Vec<Case> {
    let (good, none) = (field(OCTET, 0, 0), Block::default);
    let (missing, young) = (Field { list: 1, ..good }, Field { since: 1, ..good });
    let fieldless = Block { groups: vec![Group { id: 3, since: 0, block: none() }], ..none() };
    let templates = (0..64).map(|id| Template { id, block: none() }).collect();
    let after_64 = Book { lists: vec![enumeration(4, EMPTY)], ..books::book(0, templates) }.octets();
    vec![
        book("two templates and two lists: accepted", faults(good, none(), &[&[1], &[2]]), Ok(())),
        book("the first of two lists at fault: 4 at 2", faults(good, none(), &[EMPTY, EMPTY]), no(4, 2)),
        book("the last of three lists at fault: 4 at 4", faults(good, none(), &[&[1], &[1], EMPTY]), no(4, 4)),
        book("a list at fault after 64 templates: 4 at 64", after_64, no(4, 64)),
        book("4 of the last template before 4 of a list", faults(good, fieldless, &[EMPTY]), no(4, 1)),
        book("4 of the last list before 5 of a template", faults(missing, none(), &[&[1], EMPTY]), no(4, 3)),
        book("4 of the last list before 6 of a template", faults(young, none(), &[&[1], EMPTY]), no(4, 3)),
        book("5 of a missing list before 6", faults(Field { list: 1, ..young }, none(), &[&[1]]), no(5, 0)),
        book("6 of a book with a list", faults(young, none(), &[&[1]]), no(6, 0)),
    ]
}

/// What nothing uses is judged by 3 and 4 alone.
fn unused_cases() -> Vec<Case> {
    let bits = [set(3, &[0, 64, 65535]), enumeration(4, &[1])];
    let many: Vec<NameList> = (0..816).map(|id| set(id, &[65535])).collect();
    vec![
        book("lists that nothing uses: accepted", of_lists(&bits), Ok(())),
        book("a list that nothing uses, without numbers: 4 at 1", of_lists(&[set(3, EMPTY)]), no(4, 1)),
        book("816 lists: accepted", of_lists(&many), Ok(())),
    ]
}
