//! The tables, in Markdown.

use crate::preparing::Prepared;
use crate::sized::{self, Measured};
use crate::workloads::{Counts, Workload, SIZES};
use crate::Operation;

/// A workload, and what each operation takes on it.
pub struct Compared {
    pub name: &'static str,
    pub what: &'static str,
    pub counts: Counts,
    /// Of what is written.
    pub drafted: Counts,
    /// Nanoseconds per message of the library, the plain and the lean rival, and a copy.
    pub times: Vec<(Operation, Vec<f64>)>,
}

/// How it is timed.
pub fn head(rounds: usize, stream_rounds: usize) {
    let processor = std::env::consts::ARCH;
    println!("Medians of {rounds} interleaved rounds ({stream_rounds} of the streams), {processor}.");
    println!();
}

/// What the workloads are.
pub fn workloads(all: &[Compared]) {
    println!("| Workload | Messages | Octets | Records | What it is |");
    println!("|---|--:|--:|--:|---|");
    for Compared { name, what, counts, .. } in all {
        println!("| {name} | {} | {} | {} | {what} |", counts.messages, counts.octets, counts.records);
    }
    println!();
}

/// Nanoseconds per message and per record, and how many times as long as the library the rivals take.
pub fn times(all: &[Compared]) {
    println!("Nanoseconds per message, and per record in brackets.");
    println!();
    beside(all, |compared, operation| {
        let counts = if operation == Operation::Write { compared.drafted } else { compared.counts };
        counts.records as f64 / counts.messages as f64
    });
}

/// What the worst messages are, and nanoseconds per message and per octet.
pub fn worst(all: &[Compared]) {
    println!("The worst messages: as long as they may be, and nearly nothing in them is to be answered.");
    println!();
    workloads(all);
    println!("Nanoseconds per message, and per octet in brackets.");
    println!();
    beside(all, |compared, _| compared.counts.octets as f64);
}

/// The times of the library and its rivals, and those of each of so many parts.
fn beside(all: &[Compared], parts: impl Fn(&Compared, Operation) -> f64) {
    println!("| Workload | Operation | library | plain | lean | copy | plain / library | lean / library |");
    println!("|---|---|--:|--:|--:|--:|--:|--:|");
    for compared in all {
        for (operation, times) in &compared.times {
            let parts = parts(compared, *operation);
            let cells: Vec<String> = times.iter().map(|&time| cell(time, parts)).collect();
            let (plain, lean) = (digits(times[1] / times[0]), digits(times[2] / times[0]));
            println!("| {} | {} | {} | {plain} | {lean} |", compared.name, operation.name(), cells.join(" | "));
        }
    }
    println!();
}

/// A time, and each of so many's part of it.
fn cell(time: f64, parts: f64) -> String {
    format!("{} ({})", digits(time), digits(time / parts))
}

/// Three digits, leading zeros aside, or all before the point.
fn digits(number: f64) -> String {
    let places = (2.0 - number.log10().floor()).max(0.0) as usize;
    format!("{number:.places$}")
}

/// The operations whose growth is shown.
pub const GROWING: [Operation; 4] = [Operation::List, Operation::Check, Operation::Write, Operation::Place];

/// The library's nanoseconds per message and per octet: a column of times for each operation.
pub fn growth(workloads: &[Workload], columns: &[Vec<f64>]) {
    let octets: Vec<usize> = workloads.iter().map(|workload| workload.counts().octets).collect();
    let names: Vec<&str> = GROWING.iter().map(|operation| operation.name()).collect();
    println!("The library on M's shape: nanoseconds per message, and per octet in brackets.");
    println!();
    println!("| Size | Octets | {} |", names.join(" | "));
    println!("|---|--:|{}", "--:|".repeat(names.len()));
    for (number, &size) in SIZES.iter().enumerate() {
        let cells: Vec<String> = columns.iter().map(|column| cell(column[number], octets[number] as f64)).collect();
        println!("| {size} KiB | {} | {} |", octets[number], cells.join(" | "));
    }
    let last = SIZES.len() - 1;
    let per_octet = |column: &[f64], number: usize| column[number] / octets[number] as f64;
    let ratios: Vec<String> =
        columns.iter().map(|column| digits(per_octet(column, last) / per_octet(column, 0))).collect();
    println!("| {} KiB / {} KiB, per octet | | {} |", SIZES[last], SIZES[0], ratios.join(" | "));
    println!();
}

/// The library's nanoseconds per octet of one message by a small and by a large book, and their ratios.
pub fn sized(pairs: &[[Measured; 2]]) {
    let names: Vec<&str> = sized::OPERATIONS.iter().map(|operation| operation.name()).collect();
    let length = pairs[0][0].length;
    println!(
        "The book's size: the library on a message of {length} octets by two books each, nanoseconds per octet of it."
    );
    println!();
    println!("| Book | Octets | Numbers | {} | What it is |", names.join(" | "));
    println!("|---|--:|--:|{}---|", "--:|".repeat(names.len()));
    for [small, large] in pairs {
        for Measured { name, what, octets, numbers, times, .. } in [small, large] {
            println!("| {name} | {octets} | {numbers} | {} | {what} |", row(times.iter().copied()));
        }
        let ratios = large.times.iter().zip(&small.times).map(|(large, small)| large / small);
        println!("| {} / {} | | | {} | |", large.name, small.name, row(ratios));
    }
    println!();
}

fn row(numbers: impl Iterator<Item = f64>) -> String {
    numbers.map(digits).collect::<Vec<_>>().join(" | ")
}

/// The library's nanoseconds per message of the stream by either byte order, and their ratios.
pub fn byte_order(times: &[[f64; 2]]) {
    let names: Vec<&str> = sized::OPERATIONS.iter().map(|operation| operation.name()).collect();
    println!(
        "The byte order: the library on the stream, little-endian and big-endian by turns, nanoseconds per message."
    );
    println!();
    println!("| Byte order | {} |", names.join(" | "));
    println!("|---|{}", "--:|".repeat(names.len()));
    println!("| little | {} |", row(times.iter().map(|[little, _]| *little)));
    println!("| big | {} |", row(times.iter().map(|[_, big]| *big)));
    println!("| big / little | {} |", row(times.iter().map(|[little, big]| big / little)));
    println!();
}

/// Nanoseconds of preparing a book, and of checking a message by it.
pub fn prepared(all: &[Prepared]) {
    println!("Preparing: nanoseconds per book, and per message of a check by the book's octets and by its numbers.");
    println!();
    println!("| Workload | Octets | Numbers | prepare | check by octets | check by numbers | It pays from message |");
    println!("|---|--:|--:|--:|--:|--:|--:|");
    for book in all {
        let times = row([book.prepare, book.by_octets, book.by_numbers].into_iter());
        let pays = book.pays_from().map_or("never".into(), |messages| messages.to_string());
        println!("| {} | {} | {} | {times} | {pays} |", book.name, book.octets, book.numbers);
    }
}
