//! What is asked: a book, and a message to read or a listing to write.

use crate::recorded::{self, draft_asked, number, place_asked, take, PLACE, WRITE};
use crate::report::hex;
use plain::{Draft, Place};
use std::fmt;

pub struct Case {
    pub book: Vec<u8>,
    pub asked: Asked,
}

#[derive(Clone)]
pub enum Asked {
    /// A message, and places in it.
    Read(Vec<u8>, Vec<Place>),
    /// What is written, and a size of room for it besides the exact one.
    Write(Draft, usize),
}

impl fmt::Display for Case {
    fn fmt(&self, out: &mut fmt::Formatter) -> fmt::Result {
        write!(out, "book {}, ", hex(&self.book))?;
        match &self.asked {
            Asked::Read(message, _) => write!(out, "message {}", hex(message)),
            Asked::Write(Draft { template, listing, pool }, _) => {
                write!(out, "template {template}, listing {listing:?}, pool {}", hex(pool))
            }
        }
    }
}

/// The recorded cases. A message is asked in every way that there is.
pub fn recorded() -> Vec<Case> {
    recorded::cases().iter().map(|case| of(case.call, case.input)).collect()
}

fn of(call: u8, mut input: &[u8]) -> Case {
    let count = number(&mut input, 2) as usize;
    let book = take(&mut input, count).to_vec();
    let asked = match call {
        PLACE => {
            let place = place_asked(&mut input);
            Asked::Read(input.to_vec(), vec![place])
        }
        WRITE => {
            let (draft, room) = draft_asked(input);
            Asked::Write(draft, room)
        }
        _ => Asked::Read(input.to_vec(), vec![Place { steps: vec![(0, 0)], kind: 0, element: 0 }]),
    };
    Case { book, asked }
}
