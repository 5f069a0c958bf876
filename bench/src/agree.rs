//! Before anything is timed: the rivals give the same answers, refusals too, and store the same.

use crate::rivals::Rival;
use crate::workloads::{Sample, Workload};
use plain::{Record, Refusal};

/// Panics where the two differ on the workload, or where a message is not written back.
pub fn agree<A: Rival, B: Rival>(a: &A, b: &B, workload: &Workload) {
    let (mut rooms_a, mut rooms_b) = (workload.rooms(), workload.rooms());
    for sample in workload.samples() {
        assert_eq!(said(a, sample, &mut rooms_a.numbers), said(b, sample, &mut rooms_b.numbers));
        assert!(rooms_a.numbers == rooms_b.numbers, "the listings differ");
    }
    for draft in &workload.drafts {
        let written = a.write(draft, &mut rooms_a.octets).map_err(A::refusal);
        assert_eq!(written, Ok(draft.pool.len()));
        assert_eq!(written, b.write(draft, &mut rooms_b.octets).map_err(B::refusal));
        assert!(rooms_a.octets == rooms_b.octets, "the messages differ");
        let same_version = rooms_a.octets[6..8] == draft.pool[6..8];
        assert!(!same_version || rooms_a.octets.starts_with(&draft.pool), "a message is not written back");
    }
}

/// What is said of a message: its check, the number of its records, with room for them and without, all its records,
/// and the answer for the place asked for.
#[derive(Debug, PartialEq)]
struct Said {
    check: Result<(), Refusal>,
    list: Result<usize, Refusal>,
    no_room: Result<usize, Refusal>,
    list_all: Result<Vec<u64>, Refusal>,
    place: Result<Record, Refusal>,
}

fn said<R: Rival>(rival: &R, sample: Sample, room: &mut [u64]) -> Said {
    Said {
        check: rival.check(sample.octets).map_err(R::refusal),
        list: rival.list(sample.octets, room).map_err(R::refusal),
        no_room: rival.list(sample.octets, &mut []).map_err(R::refusal),
        list_all: rival.list_all(sample.octets).map_err(R::refusal).map(R::numbers),
        place: rival.place(sample.octets, sample.asked).map_err(R::refusal).map(R::record),
    }
}
