//! Random books, messages and listings, whole and damaged, by the library and by the plain reader and writer.

pub mod books;
pub mod borders;
mod compare;
pub mod damage;
pub mod faults;
pub mod listings;
mod lists;
pub mod messages;
pub mod places;
mod seen;
mod texts;
mod two_books;
mod two_orders;
mod written;

use crate::report::{hex, same, Report};
use compare::BothBooks;
use plain::dimension::{FOUR, TWO};
use plain::{byte_order::BIG, extension::extends, Book, Draft, Rng};
use seen::Seen;
use two_books::{Agreed, Pair};
use two_orders::{Alike, Orders};

/// Messages for each pair of books.
const MESSAGES: usize = 20;
/// Listings for each of them.
const LISTINGS: usize = 3;
/// Messages that are turned, for each pair.
const TURNED: usize = 4;
/// With so many messages everything comes that can come. With fewer, what never came is no failure.
const ENOUGH: u64 = 10_000;

/// Compares so many messages, and a book or three and some listings for each twenty of them.
pub fn run(report: &mut Report, seed: u64, messages: u64) {
    let (seen, agreed, alike) = (Seen::nothing(), Agreed::default(), Alike::default());
    let mut run = Run { rng: Rng::new(seed), seen, agreed, alike, report, seed, compared: 0, drafts: 0 };
    while run.compared < messages {
        run.round();
    }
    let Run { seen, agreed, alike, compared, drafts, report, .. } = run;
    println!("random: seed {seed}, {compared} messages and {drafts} listings compared; the library answered");
    seen.print();
    println!("two books: {agreed}");
    println!("two byte orders: {alike}");
    if messages >= ENOUGH {
        seen.report(report);
        report.check(same("all came", agreed.all_came(), true), || format!("two books: {agreed}"));
        report.check(same("all came", alike.all_came(), true), || format!("two byte orders: {alike}"));
    } else {
        println!("fewer than {ENOUGH} messages: what never came is no failure");
    }
}

struct Run<'a> {
    rng: Rng,
    seen: Seen,
    agreed: Agreed,
    alike: Alike,
    report: &'a mut Report,
    seed: u64,
    compared: u64,
    drafts: u64,
}

impl Run<'_> {
    /// A book, one that extends it, the same for the other byte order, and one that is damaged, with messages for each.
    fn round(&mut self) {
        let older = books::book(&mut self.rng);
        let newer = if older.version < 65534 { books::extension(&mut self.rng, &older) } else { older.clone() };
        let (old_octets, new_octets) = (older.octets(), newer.octets());
        let old_both = self.book(&old_octets);
        let new_both = self.book(&new_octets);
        let legal = older.version == 65534 || extends(&newer, &older);
        self.report.check(same("legal", legal, true), || format!("extension {newer:?} of {older:?}"));
        let pair = Pair::of(&old_both, &new_both);
        let choices = [(&older, &old_both), (&older, &new_both), (&newer, &old_both), (&newer, &new_both)];
        for _ in 0..MESSAGES {
            let (made_for, read_by) = self.rng.pick(&choices);
            let octets = self.made(made_for);
            self.message(read_by, &octets);
            let outcome = pair.as_ref().and_then(|pair| pair.agree(&octets, &mut self.agreed));
            if let Some(outcome) = outcome {
                let books = || format!("older {}, newer {}", hex(&old_octets), hex(&new_octets));
                self.report.check(outcome, || format!("seed {}, {}, message {}", self.seed, books(), hex(&octets)));
            }
        }
        self.listings(&older, &old_both, LISTINGS);
        self.listings(&newer, &new_both, LISTINGS);
        self.other_order(&older, &newer, &new_both);
        self.damaged(&newer);
    }

    /// The newer book for the other byte order, which extends the older no more: messages and a listing by both orders,
    /// and a message that is not turned.
    fn other_order(&mut self, older: &Book, newer: &Book, both: &BothBooks) {
        let other = Book { byte_order: BIG - newer.byte_order, ..newer.clone() };
        let legal = same("legal by another byte order", extends(&other, older), false);
        self.report.check(legal, || format!("extension {other:?} of {older:?}"));
        let resized = Book { dimension: TWO + FOUR - newer.dimension, ..newer.clone() };
        let legal = same("legal by other dimensions", extends(&resized, older), false);
        self.report.check(legal, || format!("extension {resized:?} of {older:?}"));
        let other_octets = other.octets();
        let other_both = self.book(&other_octets);
        if let Some(orders) = Orders::of(both, &other_both) {
            let (seed, book) = (self.seed, hex(both.octets));
            for _ in 0..TURNED {
                let octets = self.made(newer);
                let outcome = orders.read_alike(&mut self.rng, &octets, &mut self.alike);
                self.report.check(outcome, || format!("seed {seed}, book {book}, message {}", hex(&octets)));
            }
            let draft = listings::draft(&mut self.rng, newer);
            let outcome = orders.written_alike(&draft, &mut self.alike);
            self.report.check(outcome, || format!("seed {seed}, book {book}, {}", said(&draft)));
        }
        let octets = self.made(newer);
        self.message(&other_both, &octets);
    }

    /// The book with some damage or at a border, and messages for what is left of it.
    fn damaged(&mut self, book: &Book) {
        let octets = match self.rng.chance(50) {
            true => borders::book(&mut self.rng, book.clone()).octets(),
            false => damage::book(&mut self.rng, book.octets()),
        };
        let both = self.book(&octets);
        for _ in 0..2 {
            let octets = self.made(both.plain.as_ref().unwrap_or(book));
            self.message(&both, &octets);
        }
        self.listings(both.plain.as_ref().unwrap_or(book), &both, 1);
    }

    /// Listings made for a book and written by one that may be another.
    fn listings(&mut self, made_for: &Book, written_by: &BothBooks, count: usize) {
        for _ in 0..count {
            self.drafts += 1;
            let draft = listings::draft(&mut self.rng, made_for);
            let outcome = written::draft(&mut self.rng, &mut self.seen, written_by, &draft);
            let (seed, book) = (self.seed, written_by.octets);
            self.report.check(outcome, || format!("seed {seed}, book {}, {}", hex(book), said(&draft)));
        }
    }

    /// A message for the book, damaged nearly as often as not.
    fn made(&mut self, book: &Book) -> Vec<u8> {
        let octets = messages::message(&mut self.rng, book);
        match self.rng.chance(45) {
            true => damage::message(&mut self.rng, book, octets),
            false => octets,
        }
    }

    fn book<'b>(&mut self, octets: &'b [u8]) -> BothBooks<'b> {
        let both = BothBooks::read(octets);
        let outcome = both.compare(&mut self.seen);
        self.report.check(outcome, || format!("seed {}, book {}", self.seed, hex(octets)));
        both
    }

    fn message(&mut self, book: &BothBooks, octets: &[u8]) {
        self.compared += 1;
        let outcome = compare::message(&mut self.rng, &mut self.seen, book, octets);
        let seed = self.seed;
        self.report.check(outcome, || format!("seed {seed}, book {}, message {}", hex(book.octets), hex(octets)));
    }
}

fn said(Draft { template, listing, pool }: &Draft) -> String {
    format!("template {template}, listing {listing:?}, pool {}", hex(pool))
}
