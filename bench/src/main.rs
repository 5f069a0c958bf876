//! Times the library beside the plain reader and writer of its tests, lean ones that are made for speed, and a copy of
//! the message's octets. The arguments are how many rounds there are to be and the one workload to run; or `once`, which
//! times nothing.

mod agree;
mod byte_order;
mod counted;
mod lean;
mod preparing;
mod rivals;
mod sized;
mod tables;
mod timing;
mod workloads;

use plain::ByteOrder;
use rivals::Rival;
use tables::Compared;
use timing::{medians, Contender};
use workloads::{Entry, Workload, ALL, SIZED, SIZES, WORST};

const ROUNDS: usize = 151;
/// A round of a stream is long by itself: it has one of so many rounds, but five at least.
const FEWER: usize = 10;
const FEWEST: usize = 5;

/// The word for calling once instead of timing.
const ONCE: &str = "once";

/// The names by which the growth, the byte orders and the cost of preparing are chosen.
const GROWTH: &str = "growth";
const BYTE_ORDER: &str = "byte_order";
const PREPARE: &str = "prepare";

#[derive(Clone, Copy, PartialEq)]
pub enum Operation {
    Check,
    List,
    /// From nothing: into room of the rival's own making.
    ListAll,
    Place,
    Write,
}

const OPERATIONS: [Operation; 5] =
    [Operation::Check, Operation::List, Operation::ListAll, Operation::Place, Operation::Write];

/// Those of the worst messages, which are not written.
const READING: [Operation; 3] = [Operation::Check, Operation::List, Operation::Place];

impl Operation {
    pub fn name(self) -> &'static str {
        match self {
            Operation::Check => "check",
            Operation::List => "list",
            Operation::ListAll => "list_all",
            Operation::Place => "place",
            Operation::Write => "write",
        }
    }
}

fn main() {
    let mut words = std::env::args().skip(1).peekable();
    if words.next_if(|word| word == ONCE).is_some() {
        return counted::run();
    }
    let rounds: usize = words.next().map_or(ROUNDS, |word| word.parse().expect("a number of rounds"));
    let only = words.next();
    let chosen = |name: &str| only.as_deref().map_or(true, |only| only == name);
    let entries: Vec<&Entry> = ALL.iter().filter(|(name, ..)| chosen(name)).collect();
    let worst: Vec<&Entry> = WORST.iter().filter(|(name, ..)| chosen(name)).collect();
    let pairs: Vec<&[Entry; 2]> = SIZED.iter().filter(|[_, (name, ..)]| chosen(name)).collect();
    let others = [GROWTH, BYTE_ORDER, PREPARE].iter().any(|name| chosen(name));
    assert!(!entries.is_empty() || !worst.is_empty() || !pairs.is_empty() || others, "no such workload");
    tables::head(rounds, fewer(rounds));
    if !entries.is_empty() {
        let compared: Vec<Compared> = entries.into_iter().map(|entry| compare(entry, &OPERATIONS, rounds)).collect();
        tables::workloads(&compared);
        tables::times(&compared);
    }
    if !worst.is_empty() {
        let compared = worst.into_iter().map(|entry| compare(entry, &READING, fewer(rounds)));
        tables::worst(&compared.collect::<Vec<_>>());
    }
    if chosen(GROWTH) {
        growth(rounds);
    }
    if !pairs.is_empty() {
        tables::sized(&pairs.into_iter().map(|pair| sized::time(pair, rounds)).collect::<Vec<_>>());
    }
    if chosen(BYTE_ORDER) {
        tables::byte_order(&byte_order::time(rounds));
    }
    if chosen(PREPARE) {
        let all = ALL.iter().chain(SIZED.iter().flatten());
        tables::prepared(&all.map(|entry| preparing::time(entry, rounds)).collect::<Vec<_>>());
    }
}

fn fewer(rounds: usize) -> usize {
    (rounds / FEWER).max(FEWEST)
}

fn compare(&(name, what, make): &Entry, operations: &[Operation], rounds: usize) -> Compared {
    let workload = &make();
    let plain = plain::Book::read(&workload.book).expect("a book");
    let times = match (plain.byte_order(), plain.is_counted()) {
        (ByteOrder::Little, false) => times::<false, false>(workload, &plain, operations, rounds),
        (ByteOrder::Little, true) => times::<false, true>(workload, &plain, operations, rounds),
        (ByteOrder::Big, false) => times::<true, false>(workload, &plain, operations, rounds),
        (ByteOrder::Big, true) => times::<true, true>(workload, &plain, operations, rounds),
    };
    Compared { name, what, counts: workload.counts(), drafted: workload.drafted(), times }
}

/// Times each operation, once the rivals agree, by a book of this byte order and with such dimensions.
fn times<const BIG: bool, const COUNTED: bool>(
    workload: &Workload,
    plain: &plain::Book,
    operations: &[Operation],
    rounds: usize,
) -> Vec<(Operation, Vec<f64>)> {
    let library = siphonbard::Book::checked(&workload.book).expect("a book");
    let lean = lean::Book::<BIG, COUNTED>::compiled(plain);
    agree::agree(&library, plain, workload);
    agree::agree(&library, &lean, workload);
    let rounds = if workload.is_stream() { fewer(rounds) } else { rounds };
    let mut rooms = workload.rooms();
    let time = |operation| {
        let mut contenders = [
            contender(&library, workload, operation),
            contender(plain, workload, operation),
            contender(&lean, workload, operation),
            copying(workload, operation),
        ];
        (operation, medians(&mut contenders, &mut rooms, rounds))
    };
    operations.iter().copied().map(time).collect()
}

fn contender<'a, R: Rival>(rival: &'a R, workload: &'a Workload, operation: Operation) -> Contender<'a> {
    let samples = workload.samples();
    match operation {
        Operation::Check => Contender::new(samples, move |sample, _| rival.check(sample.octets)),
        Operation::List => Contender::new(samples, move |sample, rooms| rival.list(sample.octets, &mut rooms.numbers)),
        Operation::ListAll => Contender::new(samples, move |sample, _| rival.list_all(sample.octets)),
        Operation::Place => Contender::new(samples, move |sample, _| rival.place(sample.octets, sample.asked)),
        Operation::Write => {
            let drafts = workload.drafts.iter().collect();
            Contender::new(drafts, move |draft, rooms| rival.write(draft, &mut rooms.octets))
        }
    }
}

/// The floor: the octets of the same messages are copied.
fn copying(workload: &Workload, operation: Operation) -> Contender<'_> {
    let messages: Vec<&[u8]> = match operation {
        Operation::Write => workload.drafts.iter().map(|draft| &draft.pool[..]).collect(),
        _ => workload.samples().iter().map(|sample| sample.octets).collect(),
    };
    Contender::new(messages, |message, rooms| rooms.octets[..message.len()].copy_from_slice(message))
}

/// The library alone, on messages of one shape that grow.
fn growth(rounds: usize) {
    let workloads: Vec<Workload> = SIZES.iter().map(|&kib| workloads::of_size(kib)).collect();
    let books = workloads.iter().map(|workload| siphonbard::Book::checked(&workload.book).expect("a book"));
    let books: Vec<siphonbard::Book> = books.collect();
    let mut rooms = workloads[workloads.len() - 1].rooms();
    let time = |operation| {
        let pairs = books.iter().zip(&workloads);
        let mut contenders: Vec<_> = pairs.map(|(book, workload)| contender(book, workload, operation)).collect();
        medians(&mut contenders, &mut rooms, rounds)
    };
    let columns: Vec<Vec<f64>> = tables::GROWING.iter().copied().map(time).collect();
    tables::growth(&workloads, &columns);
}
