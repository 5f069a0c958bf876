//! Random cases by the makers of `random`, most of them damaged.

use super::cases::{Asked, Case};
use crate::random::{books, borders, damage, faults, listings, messages, places};
use plain::{Book, Message, Rng, LONGEST};

/// Messages for each book, and listings.
const MESSAGES: usize = 6;
const LISTINGS: usize = 3;

/// So many cases or a few more, by several books.
pub fn cases(seed: u64, count: usize) -> Vec<Case> {
    let (mut rng, mut cases) = (Rng::new(seed), Vec::new());
    while cases.len() < count {
        let tree = books::book(&mut rng);
        let book = match rng.below(6) {
            0 => borders::book(&mut rng, tree.clone()).octets(),
            1 => damage::book(&mut rng, tree.octets()),
            _ => tree.octets(),
        };
        let read = Book::read(&book);
        let tree = read.as_ref().unwrap_or(&tree);
        cases.extend((0..MESSAGES).map(|_| Case { book: book.clone(), asked: message(&mut rng, tree) }));
        cases.extend((0..LISTINGS).map(|_| Case { book: book.clone(), asked: listing(&mut rng, tree) }));
    }
    cases
}

/// Three in four are damaged.
fn message(rng: &mut Rng, book: &Book) -> Asked {
    let mut octets = messages::message(rng, book);
    if rng.chance(75) {
        octets = damage::message(rng, book, octets);
    }
    let places = match Message::read(book, &octets) {
        Ok(message) => (0..3).map(|_| places::near(rng, &message)).collect(),
        Err(_) => vec![places::any(rng)],
    };
    Asked::Read(octets, places)
}

/// More than half are at fault.
fn listing(rng: &mut Rng, book: &Book) -> Asked {
    let mut draft = listings::draft(rng, book);
    if rng.chance(30) {
        faults::numbers(rng, &mut draft.listing);
    }
    Asked::Write(draft, rng.pick(&[12, 40, 1000, LONGEST]))
}
