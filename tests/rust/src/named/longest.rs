//! The longest messages that can be written, and ones that are too long.

use super::books::{field, fields, of, DATA, OCTET};
use super::calls::Call;
use super::dimensions::four;
use super::writing::draft;
use crate::readers::{lent, Free, Plain, Reader, Stream};
use crate::report::same;
use plain::{refusal, Block, Draft, Group, Record, LONGEST};

pub fn calls() -> [(&'static str, Call); 4] {
    [
        ("writing 65,535 octets of entries, and 65,536: 55", entries),
        ("writing 65,535 octets of data, and 65,536: 55", data),
        ("writing 65,534 entries: 55, and 51 before it", most_entries),
        ("writing 2^32 + 16 octets: 55", over_32_bits),
    ]
}

/// Groups of one uint8 in a block of that length.
pub fn of_groups(length: u16, count: usize) -> Vec<u8> {
    let group = Group { id: 1, since: 0, block: fields(length, vec![field(OCTET, 0, 0)]) };
    of(Block { groups: vec![group; count], ..Block::default() })
}

/// A group of so many entries.
pub fn group(entries: u64) -> impl Iterator<Item = Record> {
    [[4, entries, 0]].into_iter().chain((0..entries).map(|entry| [0, entry % 251, 0]))
}

const MORE: usize = LONGEST + 9;

/// Exactly as long as a message may be, then with room for one octet less, and one octet longer.
pub fn to_the_limit(book: &[u8], longest: &Draft, longer: &Draft) -> Result<(), String> {
    let mut message = vec![0; LONGEST];
    same("plain", Plain.write(book, longest, &mut message), Ok(LONGEST))?;
    let readers: [&dyn Reader; 3] = [&Plain, &Free, &Stream];
    for reader in readers {
        for octets in [LONGEST, MORE] {
            let mut room = lent(octets);
            same(reader.name(), reader.write(book, longest, &mut room), Ok(LONGEST))?;
            same(reader.name(), room == [&message, &lent(octets)[LONGEST..]].concat(), true)?;
        }
        for (draft, octets) in [(longest, LONGEST - 1), (longer, MORE)] {
            let mut room = lent(octets);
            same(reader.name(), reader.write(book, draft, &mut room), Err(refusal(55, 0)))?;
            same(reader.name(), room == lent(octets), true)?;
        }
    }
    Ok(())
}

/// 12 octets for the header and 4 for the dimension, or 8.
fn entries() -> Result<(), String> {
    let of_entries = |entries| draft(&group(entries).collect::<Vec<_>>(), &[]);
    to_the_limit(&of_groups(1, 1), &of_entries(65519), &of_entries(65520))?;
    to_the_limit(&four(of_groups(1, 1)), &of_entries(65515), &of_entries(65516))
}

/// 12 octets for the header and 2 for the length.
fn data() -> Result<(), String> {
    let pool: Vec<u8> = (0..65522u32).map(|at| (at % 253) as u8).collect();
    let of_octets = |octets| draft(&[[2, 0, octets]], &pool);
    to_the_limit(&of(Block { data: vec![DATA], ..Block::default() }), &of_octets(65521), &of_octets(65522))
}

fn most_entries() -> Result<(), String> {
    let (book, mut room) = (of_groups(1, 1), lent(70000));
    let whole = draft(&group(65534).collect::<Vec<_>>(), &[]);
    let mut cut = whole.clone();
    cut.listing.pop();
    let readers: [&dyn Reader; 3] = [&Plain, &Free, &Stream];
    for reader in readers {
        same(reader.name(), reader.write(&book, &whole, &mut room), Err(refusal(55, 0)))?;
        same(reader.name(), reader.write(&book, &cut, &mut room), Err(refusal(51, 65534)))?;
    }
    same("room", room == lent(70000), true)
}

/// A header, two dimensions, and 65,534 and 4 blocks of 65,534 octets: 16 octets in 32 bits. The plain writer is not
/// asked, for it would make the blocks.
fn over_32_bits() -> Result<(), String> {
    let draft = draft(&group(65534).chain(group(4)).collect::<Vec<_>>(), &[]);
    let (book, mut room) = (of_groups(65534, 2), lent(70000));
    let readers: [&dyn Reader; 2] = [&Free, &Stream];
    for reader in readers {
        same(reader.name(), reader.write(&book, &draft, &mut room), Err(refusal(55, 0)))?;
    }
    same("room", room == lent(70000), true)
}
