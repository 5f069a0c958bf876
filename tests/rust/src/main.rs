//! Tests of the library `siphonbard`: named cases, recorded cases, and random books, messages and listings
//! against a reader and a writer in plain Rust; and the same in memory where an octet touched outside a buffer is seen.
//! The arguments are a seed and how many random messages there are to be; without them both are fixed. With `valgrind`
//! before them it is only what `tests/robust` runs under valgrind.

#![no_main]

mod named;
mod random;
mod raw;
mod readers;
mod recorded;
mod report;
mod robust;
mod rooms;
mod turned;
mod wire;

use report::Report;
use std::os::raw::{c_char, c_int};
use std::panic;

const SEED: u64 = 20140603;
const MESSAGES: u64 = 200_000;

/// C's entry point and not Rust's: Rust's own reads the process's memory map first, which an emulator of x86-64 does not
/// survive.
#[no_mangle]
pub extern "C" fn main(_count: c_int, _words: *const *const c_char) -> c_int {
    match panic::catch_unwind(run) {
        Ok(true) => 0,
        _ => 1,
    }
}

fn run() -> bool {
    let mut words = std::env::args().skip(1).peekable();
    let valgrind = words.next_if(|word| word == "valgrind").is_some();
    let mut numbers = words.map(|word| word.parse().expect("a seed, and a number of messages"));
    let (seed, messages) = (numbers.next().unwrap_or(SEED), numbers.next().unwrap_or(MESSAGES));
    let mut report = Report::default();
    if valgrind {
        robust::on_the_heap(&mut report, seed, messages);
        println!("robust: {} passed, {} failed", report.passed, report.failed);
        return report.failed == 0;
    }
    named::run(&mut report);
    report.part();
    recorded::replay(&mut report);
    report.part();
    robust::run(&mut report, seed, messages);
    report.part();
    random::run(&mut report, seed, messages);
    println!("tests: {} passed, {} failed, on {}", report.passed, report.failed, std::env::consts::ARCH);
    report.failed == 0
}
