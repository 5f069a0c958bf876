//! Groups and data inside groups that the book does not know: by dimensions of four numbers they are passed, each fault
//! has its place, and no group on the wire is below depth four.

use super::books::{field, fields, nested, of, OCTET};
use super::byte_orders::listed;
use super::calls::Call;
use super::dimensions::{four, newer, of_version, older, WHOLE};
use super::{octets, Case, Expected};
use crate::readers::{Free, Plain, Reader, Stream};
use crate::report::same;
use plain::{refusal, Block, Place, Record, Refusal, LONGEST};

pub fn cases() -> Vec<Case> {
    [passed_cases(), fault_cases(), depth_cases(), known_depth_cases(), place_cases()].into_iter().flatten().collect()
}

pub fn calls() -> [(&'static str, Call); 1] {
    [("65,535 octets of groups that the book does not know, each of 65,534 entries without octets", most_entries)]
}

/// By the older book, at version 1. The group's dimension stands at 12, its first entry at 20.
fn passed(name: &'static str, rest: &str, records: &[Record]) -> Case {
    listed(name, older(), of_version(1, rest), Ok(records.to_vec()))
}

/// Two entries, each with a group and a data more.
fn twice() -> String {
    let (first, second) = ("05 | 01 00 01 00 00 00 00 00 | 06 | 00 00", "09 | 00 00 00 00 00 00 00 00 | 02 00 61 62");
    ["01 00 02 00 01 00 01 00", first, second].join("|")
}

fn passed_cases() -> Vec<Case> {
    let (one, two) = ([[4, 1, 0], [0, 5, 0]], [[4, 2, 0], [0, 5, 0], [0, 9, 0]]);
    let deep = "01 00 01 00 01 00 00 00 | 05 | 02 00 01 00 01 00 01 00 | 06 06 | 01 00 02 00 01 00 00 00 | 07";
    let deeper = "01 00 02 00 00 00 00 00 | 08 08 | 07 | 00 00 00 00 00 00 00 00 | 01 00 61";
    let data_alone = "01 00 02 00 00 00 02 00 | 05 | 01 00 61 | 00 00 | 09 | 00 00 | 02 00 61 62";
    let empty_entries = "01 00 01 00 01 00 00 00 | 05 | 00 00 03 00 01 00 01 00 | 00 00 00 00 00 00 00 00 | 00 00";
    let two_more = "00 00 fe ff 00 00 00 00 | 01 00 61 | 00 00 00 00 00 00 00 00 | 00 00";
    vec![
        passed("a group and a data that an entry has beyond the book's", WHOLE, &one),
        passed("such in each of two entries", &twice(), &two),
        passed("such groups in groups, and data in them", &[deep, deeper].join("|"), &one),
        passed("data alone", data_alone, &two),
        passed("none, at a later version", "01 00 02 00 00 00 00 00 | 05 09", &two),
        passed("a group of no entries and many counts", "01 00 01 00 01 00 00 00 | 05 | 00 00 00 00 07 00 09 00", &one),
        passed("65,534 entries without octets", "01 00 01 00 01 00 00 00 | 05 | 00 00 fe ff 00 00 00 00", &one),
        passed("entries without octets that have groups and data", &[empty_entries, two_more].join("|"), &one),
        passed("longer entries", "03 00 02 00 00 00 01 00 | 05 aa bb | 00 00 | 09 aa bb | 01 00 61", &two),
    ]
}

/// A group that the book does not know stands at 21.
fn fault_cases() -> Vec<Case> {
    let at_21 = |name, rest: &str, number, place| {
        let message = [of_version(1, "01 00 01 00 01 00 01 00 | 05"), octets(rest)].concat();
        listed(name, older(), message, Err(refusal(number, place)))
    };
    vec![
        at_21("unknown: no dimension: 16 at it", "", 16, 21),
        at_21("unknown: a dimension without its last octet: 16 at it", "01 00 01 00 00 00 00", 16, 21),
        at_21("unknown: 65,535 octets an entry: 17", "ff ff 00 00 00 00 00 00", 17, 21),
        at_21("unknown: 65,535 entries: 17", "00 00 ff ff 00 00 00 00", 17, 21),
        at_21("unknown: 65,535 groups: 17", "00 00 00 00 ff ff 00 00", 17, 21),
        at_21("unknown: 65,535 data: 17", "00 00 00 00 00 00 ff ff", 17, 21),
        at_21("unknown: a product that runs out: 16 at the dimension", "02 00 02 00 00 00 00 00 | 06 06 07", 16, 21),
        at_21("unknown: 65,534 times 65,534 octets: 16 at the dimension", "fe ff fe ff 00 00 00 00", 16, 21),
        at_21("unknown: a first entry that runs out: 16 at the dimension", "02 00 01 00 00 00 01 00 | 06", 16, 21),
        at_21("unknown: a second one: 16 at the dimension", "02 00 02 00 00 00 01 00 | 06 06 00 00 | 07", 16, 21),
        at_21("unknown: its data's length is cut: 16 at it", "01 00 01 00 00 00 01 00 | 06 00", 16, 30),
        at_21("unknown: its data of 65,535 octets: 19 at it", "01 00 01 00 00 00 01 00 | 06 ff ff", 19, 30),
        at_21("unknown: its data runs out: 16 at its length", "01 00 01 00 00 00 01 00 | 06 02 00 61", 16, 30),
        at_21("unknown: a cut inner dimension: 16 at it", "01 00 01 00 01 00 00 00 | 06 | 00 00 00 00 00", 16, 30),
        at_21(
            "unknown: an inner 65535: 17 at its dimension",
            "01 00 01 00 01 00 00 00 | 06 | 00 00 00 00 00 00 ff ff",
            17,
            30,
        ),
        at_21(
            "unknown: an inner entry runs out: 16 at its dimension",
            "01 00 01 00 01 00 00 00 | 06 | 02 00 01 00 00 00 01 00 | 07",
            16,
            30,
        ),
        at_21("unknown: the known entry's data is cut: 16 at it", "00 00 00 00 00 00 00 00 | 02 00 61", 16, 29),
        at_21("unknown: the known entry's data of 65,535 octets: 19", "00 00 00 00 00 00 00 00 | ff ff", 19, 29),
        at_21("unknown: an octet more: 20", "00 00 00 00 00 00 00 00 | 00 00 | 00", 20, 31),
    ]
}

const DOWN: &str = "00 00 01 00 01 00 00 00";
const EMPTY: &str = "00 00 00 00 00 00 00 00";

/// Groups in groups from 12 on, by a book that knows none; that of depth five stands at 44.
fn depth_cases() -> Vec<Case> {
    let chain = |name, last: &[&str], listing: Result<Vec<Record>, Refusal>| {
        let rest = [&[DOWN; 3][..], last].concat().join("|");
        listed(name, four(of(Block::default())), of_version(1, &rest), listing)
    };
    let no = |number, place| Err(refusal(number, place));
    vec![
        chain("unknown: a group of depth four", &[EMPTY], Ok(Vec::new())),
        chain(
            "unknown: depth four, two data in its entry",
            &["01 00 01 00 00 00 02 00 | 07 | 00 00 | 00 00"],
            Ok(Vec::new()),
        ),
        chain("unknown: depth four counts groups and has no entries", &["00 00 00 00 01 00 00 00"], Ok(Vec::new())),
        chain("unknown: a group of depth five: 22 at it", &[DOWN, EMPTY], no(22, 44)),
        chain("unknown: a group of depth five that goes deeper: 22 at it", &[DOWN, DOWN, EMPTY], no(22, 44)),
        chain("unknown: no octet of a depth-five dimension: 16 before 22", &[DOWN], no(16, 44)),
        chain("unknown: a cut depth-five dimension: 16 before 22", &[DOWN, "00 00 00 00 00 00 00"], no(16, 44)),
        chain(
            "unknown: a depth-five dimension holds 65535: 17 before 22",
            &[DOWN, "00 00 00 00 00 00 ff ff"],
            no(17, 44),
        ),
        chain(
            "unknown: a depth-five entry that is not there: 22 before 16",
            &[DOWN, "09 00 01 00 00 00 00 00"],
            no(22, 44),
        ),
    ]
}

/// The depth is the wire's, and not only that of groups which the book does not know.
fn known_depth_cases() -> Vec<Case> {
    let entry = "01 00 01 00 01 00 00 00 | 05";
    let by = |name, depth, rest: &[&str], listing: Result<Vec<Record>, Refusal>| {
        let message = [octets("01 00 01 00 07 00 01 00 01 00 00 00 | 05"), octets(&rest.join("|"))].concat();
        listed(name, four(of(nested(depth))), message, listing)
    };
    let known = |depth: usize, last: Record| {
        let pairs = [[0, 5, 0], [4, 1, 0]].repeat(depth);
        [&pairs[..2 * depth - 1], &[last]].concat()
    };
    let deepest = "01 00 00 00 01 00 00 00";
    let to_four = [&known(4, [4, 1, 0])[..], &[[0, 5, 0]]].concat();
    let to_two = [&known(2, [4, 1, 0])[..], &[[0, 5, 0]]].concat();
    let last = "01 00 01 00 00 00 00 00 | 05";
    vec![
        by("known to depth four, at a later version", 4, &[entry, entry, entry, last], Ok(to_four)),
        by("known to depth four, a group inside: 22", 4, &[entry, entry, entry, entry, EMPTY], Err(refusal(22, 49))),
        by(
            "known to depth four, no entries, and it counts a group",
            4,
            &[entry, entry, entry, deepest],
            Ok(known(4, [4, 0, 0])),
        ),
        by("known to depth two, unknown to depth four", 2, &[entry, entry, DOWN, EMPTY], Ok(to_two)),
        by(
            "known to depth two, unknown to depth five: 22",
            2,
            &[entry, entry, DOWN, DOWN, EMPTY],
            Err(refusal(22, 47)),
        ),
    ]
}

fn place_cases() -> Vec<Case> {
    let asked = |name, book, message, steps: &[(u64, u64)], kind, answer: Result<Record, Refusal>| Case {
        name,
        book,
        message,
        expected: Expected::Place(Place { steps: steps.to_vec(), kind, element: 0 }, answer),
    };
    let by_older =
        |name, steps: &[(u64, u64)], kind, answer| asked(name, older(), of_version(1, &twice()), steps, kind, answer);
    let absent = of_version(0, "01 00 01 00 00 00 00 00 | 05");
    let by_newer = |name, steps: &[(u64, u64)], kind, answer| asked(name, newer(), absent.clone(), steps, kind, answer);
    vec![
        by_older("place: an entry with more than the book knows", &[(0, 0)], 0, Ok([0, 5, 0])),
        by_older("place: the entry after it", &[(0, 1)], 0, Ok([0, 9, 0])),
        by_older("place: the group of such entries", &[], 1, Ok([4, 2, 0])),
        by_older("place: a group in an entry that the book does not know: 30", &[(0, 0)], 1, Err(refusal(30, 0))),
        by_older("place: a step into it: 30", &[(0, 0), (0, 0)], 0, Err(refusal(30, 0))),
        by_newer("place: a group that is younger than the one it is in: absent", &[(0, 0)], 1, Ok([3, 0, 0])),
        by_newer("place: such a data: absent", &[(0, 0)], 2, Ok([3, 0, 0])),
        by_newer("place: an entry of such a group: 31", &[(0, 0), (0, 0)], 0, Err(refusal(31, 0))),
    ]
}

/// Each is passed by its product: 8,190 groups of 65,534 entries.
fn most_entries() -> Result<(), String> {
    let book = four(of(fields(3, vec![field(OCTET, 0, 0)])));
    let groups: u16 = 8190;
    let header = [3, 1, 7, 1, groups, 0].into_iter().flat_map(u16::to_le_bytes);
    let dimensions = octets("00 00 fe ff 00 00 00 00").repeat(groups.into());
    let message: Vec<u8> = header.chain([7; 3]).chain(dimensions).collect();
    same("octets", message.len(), LONGEST)?;
    let place = Place { steps: Vec::new(), kind: 0, element: 0 };
    let readers: [&dyn Reader; 3] = [&Plain, &Free, &Stream];
    for reader in readers {
        same(reader.name(), reader.list(&book, &message, &mut [0; 3]), Ok(1))?;
        same(reader.name(), reader.place(&book, &message, &place), Ok([0, 7, 0]))?;
        same(reader.name(), reader.check(&book, &message[..LONGEST - 1]), Err(refusal(16, LONGEST - 8)))?;
    }
    Ok(())
}
