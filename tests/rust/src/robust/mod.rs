//! Robustness that is seen, not only proved: every buffer that a call is lent has exactly its size and stands where an
//! octet read or written outside of it does not go unseen, and inputs may only be read.
//!
//! `run` lends from memory between unreadable pages, where such an octet kills the process. `on_the_heap` is for
//! valgrind, which reports it; there the rooms hold nothing yet, so that a room that is read is reported too.

mod cases;
mod desk;
mod empty;
mod exports;
mod guarded;
mod heap;
mod longest;
mod made;
mod memory;
mod numbers;
mod texts;
mod unknown;

use crate::report::Report;
use cases::Case;
use desk::Desk;
use guarded::{Guarded, Side};
use heap::Heap;
use memory::Memory;

/// There is a random case here for so many messages of the random tests.
const SHARE: u64 = 20;

pub fn run(report: &mut Report, seed: u64, messages: u64) {
    if report.check(guarded::fences_hold(), || "guards".into()) {
        println!("ok guards: what lies beside a buffer cannot be touched, and an input only read");
    }
    empty::run(report);
    for side in [Side::End, Side::Start] {
        let mut desk = Desk::of(|| Guarded::at(side));
        all(report, &mut desk, side.name(), seed, messages);
    }
}

pub fn on_the_heap(report: &mut Report, seed: u64, messages: u64) {
    empty::run(report);
    all(report, &mut Desk::of(Heap::empty), "on the heap", seed, messages);
}

/// The recorded cases, random ones, and texts, numbers and what the book does not know at the ends of what is lent; and
/// the longest templates.
fn all<M: Memory>(report: &mut Report, desk: &mut Desk<M>, memory: &str, seed: u64, messages: u64) {
    let random = made::cases(seed, (messages / SHARE) as usize);
    let at_ends = [("text", texts::cases()), ("number", numbers::cases()), ("unknown", unknown::cases())];
    let others = [("recorded", cases::recorded()), ("random", random), ("longest", longest::cases())];
    for (what, cases) in others.into_iter().chain(at_ends) {
        let mut passes = |case: &Case| report.check(desk.ask(case), || format!("{memory}, seed {seed}, {case}"));
        let passed = cases.iter().filter(|case| passes(case)).count();
        println!("{what} cases, buffers {memory}: {passed} of {}", cases.len());
    }
}
