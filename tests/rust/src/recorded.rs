//! The recorded cases of `tests/cases`: an input, and the answer that two implementations gave, made apart from each
//! other. Those of `dims` were recorded before there was refusal 7: cases 214, 1537 and 1577, whose books it is for,
//! have got it as their answer.
//!
//! A case is an octet for the call (0 list, 2 place, 3 write), a 32-bit length and the input. All numbers but those of a
//! message are little-endian. An input begins with the book's octet count, 16 bits, and the book, as the listing program
//! reads them. Then, for each call:
//!
//! - list: the message.
//! - place: an octet, how many steps; a group's number and an entry's for each, 16 bits; an octet for the kind of
//!   element (0 field, 1 group, 2 data); its number, 16 bits; the message.
//! - write: template id, 16 bits; octets of room, 32 bits; how many numbers the listing has, 32 bits; these, 64 bits
//!   each; the pool.

use crate::readers::{lent, Free, Plain, Reader, Stream};
use crate::report::{hex, same, Report};
use plain::{refusal, word, Draft, Place, Record, Refusal};

/// Name, cases, and answers.
type File = (&'static str, &'static [u8], &'static str);

const FILES: [File; 2] = [
    ("dims", include_bytes!("../../cases/dims.cases"), include_str!("../../cases/dims.expected")),
    ("tmpl", include_bytes!("../../cases/tmpl.cases"), include_str!("../../cases/tmpl.expected")),
];

const LIST: u8 = 0;
pub const PLACE: u8 = 2;
pub const WRITE: u8 = 3;
/// The room of a listing, in numbers: the program's.
const ROOM: usize = 6000;
/// More octets of room than this make no difference to a message.
const ENOUGH: usize = 65536;
const PATTERN: u64 = 0xa5a5_5a5a_c3c3_3c3c;

pub struct Case<'a> {
    file: &'a str,
    number: usize,
    pub call: u8,
    pub input: &'a [u8],
    expected: &'a str,
}

pub fn cases() -> Vec<Case<'static>> {
    FILES.iter().flat_map(|&file| of_file(file)).collect()
}

fn of_file((file, mut rest, expected): File) -> Vec<Case<'static>> {
    let mut cases = Vec::new();
    for (number, line) in expected.lines().enumerate() {
        let length = u32::from_le_bytes([rest[1], rest[2], rest[3], rest[4]]) as usize;
        let expected = line.split_once(' ').expect("a number and an answer").1;
        cases.push(Case { file, number, call: rest[0], input: &rest[5..5 + length], expected });
        rest = &rest[5 + length..];
    }
    assert!(rest.is_empty(), "a case without an answer");
    cases
}

pub fn replay(report: &mut Report) {
    let cases = cases();
    let readers: [&dyn Reader; 3] = [&Plain, &Free, &Stream];
    for reader in readers {
        let (written, read): (Vec<&Case>, Vec<&Case>) = cases.iter().partition(|case| case.call == WRITE);
        for (what, cases) in [("reading", read), ("writing", written)] {
            let passed = cases.iter().filter(|case| case.run(report, reader)).count();
            println!("recorded cases, {what}, {}: {passed} of {}", reader.name(), cases.len());
        }
    }
}

impl Case<'_> {
    fn run(&self, report: &mut Report, reader: &dyn Reader) -> bool {
        let answer = match self.call {
            LIST => list(self.input, reader),
            PLACE => place(self.input, reader),
            WRITE => write(self.input, reader),
            call => panic!("there is no call {call}"),
        };
        let answer = answer.unwrap_or_else(|no| format!("refused {} {}", no.number, no.place));
        let outcome = same("answer", answer.as_str(), self.expected);
        report.check(outcome, || format!("{} {} by {}, {}", self.file, self.number, reader.name(), hex(self.input)))
    }
}

/// The next so many octets; fewer where the input ends.
pub fn take<'a>(rest: &mut &'a [u8], count: usize) -> &'a [u8] {
    let (taken, left) = rest.split_at(count.min(rest.len()));
    *rest = left;
    taken
}

pub fn number(rest: &mut &[u8], octets: usize) -> u64 {
    take(rest, octets).iter().rev().fold(0, |value, &octet| value << 8 | u64::from(octet))
}

/// The book. A cut count leaves it empty; a count over 8,192 is refused before more is read.
fn book<'a>(rest: &mut &'a [u8]) -> Result<&'a [u8], Refusal> {
    let count = take(rest, 2);
    if count.len() < 2 {
        return Ok(&[]);
    }
    match usize::from(word(count, 0)) {
        count if count > 8192 => Err(refusal(1, 0)),
        count => Ok(take(rest, count)),
    }
}

/// The place that is asked for.
pub fn place_asked(input: &mut &[u8]) -> Place {
    let count = number(input, 1);
    let steps = (0..count).map(|_| (number(input, 2), number(input, 2))).collect();
    Place { steps, kind: number(input, 1), element: number(input, 2) }
}

/// What is to be written, and the octets of room for it.
pub fn draft_asked(mut input: &[u8]) -> (Draft, usize) {
    let template = number(&mut input, 2) as u16;
    let (room, count) = (number(&mut input, 4) as usize, number(&mut input, 4));
    let listing = (0..count).map(|_| number(&mut input, 8)).collect();
    (Draft { template, listing, pool: input.to_vec() }, room.min(ENOUGH))
}

fn line(record: &[u64]) -> String {
    format!("{} {} {}", record[0], record[1], record[2])
}

fn list(mut input: &[u8], reader: &dyn Reader) -> Result<String, Refusal> {
    let (book, mut room) = (book(&mut input)?, vec![PATTERN; ROOM]);
    let outcome = reader.list(book, input, &mut room);
    let used = outcome.map_or(0, |records| 3 * records as usize);
    let altered = room[used..].iter().any(|&number| number != PATTERN);
    if altered {
        return Ok("the room past the records is altered".into());
    }
    outcome.map(|_| room[..used].chunks(3).map(line).collect::<Vec<_>>().join("|"))
}

fn place(mut input: &[u8], reader: &dyn Reader) -> Result<String, Refusal> {
    let book = book(&mut input)?;
    let place = place_asked(&mut input);
    let found: Record = reader.place(book, input, &place)?;
    Ok(line(&found))
}

fn write(mut input: &[u8], reader: &dyn Reader) -> Result<String, Refusal> {
    let book = book(&mut input)?;
    let (draft, octets) = draft_asked(input);
    let mut room = lent(octets);
    let outcome = reader.write(book, &draft, &mut room);
    let used = outcome.unwrap_or(0);
    if room[used..] != lent(room.len())[used..] {
        return Ok("the room past the message is altered".into());
    }
    outcome.map(|length| format!("ok {length} {}", hex(&room[..length])))
}
