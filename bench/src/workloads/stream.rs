//! A stream of a session's messages, in a random mix that is always the same. One in a hundred is damaged.

use super::books::{big_session, session, VERSION};
use super::fill::{Fill, FULL};
use super::{Workload, SEED};
use crate::rivals::Asked;
use plain::{Book, ByteOrder, Rng, Template};
use siphonbard::Element;

const MESSAGES: usize = 100_000;

/// How often each template comes, of 100: orders, cancels, executions, prices, snapshots, news, allocations and
/// heartbeats.
const MIX: [usize; 8] = [25, 15, 20, 20, 8, 3, 5, 4];

/// How many are of the version before, whose youngest fields are absent.
const OLDER_PERCENT: usize = 5;
const DAMAGED_PERCENT: usize = 1;

pub fn stream() -> Workload {
    first(MESSAGES)
}

/// The same messages, every number turned.
pub fn big_stream() -> Workload {
    big_first(MESSAGES)
}

/// So many messages of the stream, from its start on.
pub fn first(messages: usize) -> Workload {
    by(&session(), messages)
}

pub fn big_first(messages: usize) -> Workload {
    by(&big_session(), messages)
}

fn by(book: &Book, messages: usize) -> Workload {
    let mut fill = Fill { rng: Rng::new(SEED), entries: 1..=6, data: 4..=40, text: FULL };
    let mut workload = Workload::new(book, places());
    for _ in 0..messages {
        let number = template(&mut fill.rng);
        let message = message(&mut fill, book, &book.templates[number]);
        workload.add(book, &message, number);
    }
    workload
}

/// A place for each template.
fn places() -> Vec<Asked> {
    vec![
        Asked::new(vec![], Element::Field(10)),
        Asked::new(vec![], Element::Field(4)),
        Asked::new(vec![], Element::Data(0)),
        Asked::new(vec![(0, 0)], Element::Field(6)),
        Asked::new(vec![(1, 0)], Element::Field(2)),
        Asked::new(vec![], Element::Data(1)),
        Asked::new(vec![(0, 0), (0, 0)], Element::Field(2)),
        Asked::new(vec![], Element::Field(1)),
    ]
}

fn template(rng: &mut Rng) -> usize {
    let mut drawn = rng.below(MIX.iter().sum());
    let mut number = 0;
    while drawn >= MIX[number] {
        drawn -= MIX[number];
        number += 1;
    }
    number
}

fn message(fill: &mut Fill, book: &Book, template: &Template) -> Vec<u8> {
    let mut message = fill.message(book, template);
    if fill.rng.chance(OLDER_PERCENT) {
        message[6..8].copy_from_slice(&book.byte_order().octets16(VERSION - 1));
    }
    if fill.rng.chance(DAMAGED_PERCENT) {
        damage(&mut fill.rng, book.byte_order(), &mut message);
    }
    message
}

/// Cuts the message, makes it longer, or makes a number of its header a wrong one.
fn damage(rng: &mut Rng, order: ByteOrder, message: &mut Vec<u8>) {
    match rng.below(4) {
        0 => message.truncate(message.len() - rng.between(1, 12)),
        1 => message.extend(rng.octets(3)),
        2 => {
            let at = 2 * rng.below(6);
            let wrong = order.number16(message, at) ^ 0x40;
            message[at..at + 2].copy_from_slice(&order.octets16(wrong));
        }
        _ => {
            let at = 2 * rng.below(6);
            message[at..at + 2].fill(0xff);
        }
    }
}
