//! Books and messages at the last number that a rule allows, and at the next.

use super::books::{self, a, field, fields, of, OCTET};
use super::messages::m;
use super::{with_word, Case, Expected};
use plain::{refusal, Block, Field, Place, Refusal, Template};

pub fn cases() -> Vec<Case> {
    [head_cases(), field_cases(), template_cases(), message_cases(), cut_cases()].into_iter().flatten().collect()
}

fn book(name: &'static str, book: Vec<u8>, verdict: Result<(), Refusal>) -> Case {
    Case { name, book, message: Vec::new(), expected: Expected::Book(verdict) }
}

/// Book A's first two words are its schema's id and its version.
fn head_cases() -> Vec<Case> {
    vec![
        book("schema id 65534: accepted", with_word(&a(), 0, 65534), Ok(())),
        book("schema id 65535: 2", with_word(&a(), 0, 65535), Err(refusal(2, 0))),
        book("version 65534: accepted", with_word(&a(), 2, 65534), Ok(())),
        book("version 65535: 2", with_word(&a(), 2, 65535), Err(refusal(2, 0))),
    ]
}

/// Each field stands alone in its block.
fn field_cases() -> Vec<Case> {
    let alone = |field: Field| of(fields(2000, vec![field]));
    let array = |length| Field { length, ..field(OCTET, 0, 0) };
    vec![
        book("type 8: accepted", alone(field(8, 0, 0)), Ok(())),
        book("type 9: 5", alone(field(9, 0, 0)), Err(refusal(5, 0))),
        book("an array of 1,024 octets: accepted", alone(array(1024)), Ok(())),
        book("an array of 1,025 octets: 5", alone(array(1025)), Err(refusal(5, 0))),
        book("presence 1: accepted", alone(field(OCTET, 0, 1)), Ok(())),
        book("presence 2: 5", alone(field(OCTET, 0, 2)), Err(refusal(5, 0))),
    ]
}

/// A book of schema 7 at version 0 with templates of these ids and no elements, but for the last one's block.
fn of_ids(ids: impl Iterator<Item = u16>, last: Block) -> Vec<u8> {
    let mut templates: Vec<Template> = ids.map(|id| Template { id, block: Block::default() }).collect();
    templates.last_mut().expect("a template").block = last;
    books::book(0, templates).octets()
}

fn template_cases() -> Vec<Case> {
    let none = Block::default;
    let short = fields(0, vec![field(OCTET, 0, 0)]);
    let young = fields(1, vec![Field { since: 1, ..field(OCTET, 0, 0) }]);
    vec![
        book("template id 65534: accepted", of_ids(65534..=65534, none()), Ok(())),
        book("template id 65535: 3", of_ids(65535..=65535, none()), Err(refusal(3, 0))),
        book("64 templates: accepted", of_ids(0..64, none()), Ok(())),
        book("65 templates: 2", of_ids(0..65, none()), Err(refusal(2, 0))),
        book("a short block in the last of 64 templates: 5 at 63", of_ids(0..64, short), Err(refusal(5, 63))),
        book("a young field in the last of 64 templates: 6 at 63", of_ids(0..64, young), Err(refusal(6, 63))),
    ]
}

/// M under A with other numbers, in its dimension, which stands at 20, or in its header.
fn message_cases() -> Vec<Case> {
    let refused = |name, words: &[(usize, u16)], number, place| {
        let message = words.iter().fold(m(), |message, &(at, word)| with_word(&message, at, word));
        Case { name, book: a(), message, expected: Expected::Listing(Err(refusal(number, place))) }
    };
    vec![
        refused("entries of 65,534 octets: 16 at the first", &[(20, 65534)], 16, 24),
        refused("entries of 65,535 octets: 17", &[(20, 65535)], 17, 20),
        refused("65,534 entries: 16 at the first that is not there", &[(22, 65534)], 16, 32),
        refused("65,535 entries: 17", &[(22, 65535)], 17, 20),
        refused("a later version with fewer groups: 15 at 8", &[(6, 1), (8, 0)], 15, 8),
        refused("a later version with fewer data: 15 at 10", &[(6, 1), (10, 0)], 15, 10),
    ]
}

/// M under A, cut in its root block, which starts at 12.
fn cut_cases() -> Vec<Case> {
    let asked = |name, steps: &[(u64, u64)], kind| {
        let place = Place { steps: steps.to_vec(), kind, element: 0 };
        Case { name, book: a(), message: m()[..16].to_vec(), expected: Expected::Place(place, Err(refusal(16, 12))) }
    };
    vec![
        asked("place: a field of a cut root block: 16 at 12", &[], 0),
        asked("place: a group after a cut root block: 16 at 12", &[], 1),
        asked("place: data after a cut root block: 16 at 12", &[], 2),
        asked("place: an entry after a cut root block: 16 at 12", &[(0, 0)], 0),
    ]
}
