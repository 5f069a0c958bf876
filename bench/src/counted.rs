//! Each call once on each workload, for a tool that counts instructions. After a workload's calls of one operation
//! `counted_so_far` is called, which does nothing: a name at which such a tool can take its count. What the calls were is
//! printed in that order.

use crate::timing::black_box;
use crate::workloads::COUNTED;
use crate::{contender, sized};
use siphonbard::Book;

pub fn run() {
    for (name, _, make) in COUNTED {
        let workload = &make();
        let mut rooms = workload.rooms();
        let book = Book::checked(&workload.book).expect("a book");
        told(name, "prepare");
        for operation in sized::OPERATIONS {
            contender(&book, workload, operation).once(&mut rooms);
            told(name, operation.name());
        }
    }
}

fn told(workload: &str, call: &str) {
    counted_so_far();
    println!("{workload} {call}");
}

#[no_mangle]
#[inline(never)]
pub extern "C" fn counted_so_far() {
    black_box(());
}
