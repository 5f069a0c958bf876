//! The longest message, with entries of one octet and 63 younger fields each: over 4,000,000 records.

use super::books::{self, field, fields, OCTET};
use super::calls::Call;
use crate::readers::{Free, Plain, Reader, Stream};
use crate::report::same;
use plain::{refusal, Block, Field, Group, Place, Template, LONGEST};

pub fn calls() -> [(&'static str, Call); 3] {
    [
        ("a message of 65,535 octets with 4,193,217 records", largest),
        ("the same, in 12,579,651 numbers of room, and one less: 40", rooms),
        ("a message of 65,536 octets: 10", too_long),
    ]
}

fn book() -> Vec<u8> {
    let octet = |offset| Field { since: u16::from(offset > 0), ..field(OCTET, offset, 0) };
    let group = Group { id: 1, since: 0, block: fields(64, (0..64).map(octet).collect()) };
    let block = Block { groups: vec![group], ..Block::default() };
    books::book(1, vec![Template { id: 1, block }]).octets()
}

const ENTRIES: u16 = 65519;
const RECORDS: usize = 1 + 64 * ENTRIES as usize;

/// At version 0: only the first field of an entry is there.
fn message() -> Vec<u8> {
    let words = [0, 1, 7, 0, 1, 0, 1, ENTRIES];
    let entries = (0..ENTRIES).map(|entry| (entry % 251) as u8);
    words.iter().flat_map(|word| word.to_le_bytes()).chain(entries).collect()
}

fn largest() -> Result<(), String> {
    let (book, message) = (book(), message());
    same("octets", message.len(), LONGEST)?;
    let last = u64::from(ENTRIES) - 1;
    let field = |entry, element| Place { steps: vec![(0, entry)], kind: 0, element };
    let readers: [&dyn Reader; 3] = [&Plain, &Free, &Stream];
    for reader in readers {
        same(reader.name(), reader.list(&book, &message, &mut []), Err(refusal(40, RECORDS)))?;
        same(reader.name(), reader.place(&book, &message, &field(last, 0)), Ok([0, last % 251, 0]))?;
        same(reader.name(), reader.place(&book, &message, &field(last, 63)), Ok([3, 0, 0]))?;
        same(reader.name(), reader.place(&book, &message, &field(last + 1, 0)), Err(refusal(31, 0)))?;
    }
    Ok(())
}

fn rooms() -> Result<(), String> {
    const PATTERN: u64 = 0x1122_3344_5566_7788;
    let (book, message) = (book(), message());
    let readers: [&dyn Reader; 2] = [&Free, &Stream];
    for reader in readers {
        let mut room = vec![PATTERN; 3 * RECORDS];
        let (last, short) = room.split_last_mut().expect("numbers");
        same(reader.name(), reader.list(&book, &message, short), Err(refusal(40, RECORDS)))?;
        same(reader.name(), *last == PATTERN && short.iter().all(|&number| number == PATTERN), true)?;
        same(reader.name(), reader.list(&book, &message, &mut room), Ok(RECORDS as u64))?;
        let records = |first: usize| &room[3 * first..3 * first + 6];
        same(reader.name(), records(0), &[4, ENTRIES.into(), 0, 0, 0, 0])?;
        same(reader.name(), records(RECORDS - 65), &[3, 0, 0, 0, u64::from(ENTRIES - 1) % 251, 0])?;
        same(reader.name(), records(RECORDS - 2), &[3, 0, 0, 3, 0, 0])?;
    }
    Ok(())
}

fn too_long() -> Result<(), String> {
    let (book, mut message) = (book(), message());
    message.push(0);
    let readers: [&dyn Reader; 3] = [&Plain, &Free, &Stream];
    for reader in readers {
        same(reader.name(), reader.check(&book, &message), Err(refusal(10, 0)))?;
    }
    Ok(())
}
