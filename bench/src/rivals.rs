//! The library, the plain reader and writer, and the lean ones under one set of calls. Each has its book ready and is
//! called as its users would call it.

use crate::lean;
use plain::{writer, Draft, Message, Place, Record, Refusal};
use siphonbard::{Answer, Element, Step};

/// A place, as each of the rivals takes it.
pub struct Asked {
    pub place: Place,
    steps: Vec<Step>,
    element: Element,
}

impl Asked {
    pub fn new(steps: Vec<(u64, u64)>, element: Element) -> Asked {
        let (kind, number) = match element {
            Element::Field(number) => (0, number),
            Element::Group(number) => (1, number),
            Element::Data(number) => (2, number),
        };
        let own = steps.iter().map(|&(group, entry)| Step { group, entry }).collect();
        Asked { place: Place { steps, kind, element: number as u64 }, steps: own, element }
    }
}

pub trait Rival {
    type Refused;
    type Found;
    type All;

    fn check(&self, message: &[u8]) -> Result<(), Self::Refused>;
    fn list(&self, message: &[u8], room: &mut [u64]) -> Result<usize, Self::Refused>;
    fn list_all(&self, message: &[u8]) -> Result<Self::All, Self::Refused>;
    fn place(&self, message: &[u8], asked: &Asked) -> Result<Self::Found, Self::Refused>;
    fn write(&self, draft: &Draft, room: &mut [u8]) -> Result<usize, Self::Refused>;

    /// For comparing; not timed.
    fn refusal(refused: Self::Refused) -> Refusal;
    fn record(found: Self::Found) -> Record;
    fn numbers(all: Self::All) -> Vec<u64>;
}

impl Rival for siphonbard::Book {
    type Refused = siphonbard::Refusal;
    type Found = Answer;
    type All = Vec<Answer>;

    fn check(&self, message: &[u8]) -> Result<(), siphonbard::Refusal> {
        self.check(message)
    }

    fn list(&self, message: &[u8], room: &mut [u64]) -> Result<usize, siphonbard::Refusal> {
        self.list(message, room)
    }

    fn list_all(&self, message: &[u8]) -> Result<Vec<Answer>, siphonbard::Refusal> {
        self.list_all(message)
    }

    fn place(&self, message: &[u8], asked: &Asked) -> Result<Answer, siphonbard::Refusal> {
        self.place(message, &asked.steps, asked.element)
    }

    fn write(&self, draft: &Draft, room: &mut [u8]) -> Result<usize, siphonbard::Refusal> {
        self.write(draft.template, &draft.listing, &draft.pool, room)
    }

    fn refusal(refused: siphonbard::Refusal) -> Refusal {
        plain::refusal(refused.number.into(), refused.place)
    }

    fn record(found: Answer) -> Record {
        found.record()
    }

    fn numbers(all: Vec<Answer>) -> Vec<u64> {
        all.iter().flat_map(Answer::record).collect()
    }
}

impl Rival for plain::Book {
    type Refused = Refusal;
    type Found = Record;
    type All = Vec<Record>;

    fn check(&self, message: &[u8]) -> Result<(), Refusal> {
        Message::read(self, message).map(drop)
    }

    fn list(&self, message: &[u8], room: &mut [u64]) -> Result<usize, Refusal> {
        let records = Message::read(self, message)?.list();
        let room = room.get_mut(..3 * records.len()).ok_or(plain::refusal(40, records.len()))?;
        for (record, room) in records.iter().zip(room.chunks_exact_mut(3)) {
            room.copy_from_slice(record);
        }
        Ok(records.len())
    }

    fn list_all(&self, message: &[u8]) -> Result<Vec<Record>, Refusal> {
        Ok(Message::read(self, message)?.list())
    }

    fn place(&self, message: &[u8], asked: &Asked) -> Result<Record, Refusal> {
        Message::read(self, message)?.place(&asked.place)
    }

    fn write(&self, draft: &Draft, room: &mut [u8]) -> Result<usize, Refusal> {
        writer::write(self, draft, room)
    }

    fn refusal(refused: Refusal) -> Refusal {
        refused
    }

    fn record(found: Record) -> Record {
        found
    }

    fn numbers(all: Vec<Record>) -> Vec<u64> {
        all.concat()
    }
}

impl<const BIG: bool, const COUNTED: bool> Rival for lean::Book<BIG, COUNTED> {
    type Refused = lean::Refusal;
    type Found = Record;
    type All = Vec<u64>;

    fn check(&self, message: &[u8]) -> Result<(), lean::Refusal> {
        self.check(message)
    }

    fn list(&self, message: &[u8], room: &mut [u64]) -> Result<usize, lean::Refusal> {
        self.list(message, room)
    }

    fn list_all(&self, message: &[u8]) -> Result<Vec<u64>, lean::Refusal> {
        self.list_all(message)
    }

    fn place(&self, message: &[u8], asked: &Asked) -> Result<Record, lean::Refusal> {
        self.place(message, &asked.place)
    }

    fn write(&self, draft: &Draft, room: &mut [u8]) -> Result<usize, lean::Refusal> {
        self.write(draft.template, &draft.listing, &draft.pool, room)
    }

    fn refusal(refused: lean::Refusal) -> Refusal {
        plain::refusal(refused.number.into(), refused.place as usize)
    }

    fn record(found: Record) -> Record {
        found
    }

    fn numbers(all: Vec<u64>) -> Vec<u64> {
        all
    }
}
