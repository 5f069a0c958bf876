//! Memory on the heap, of exactly the size that is asked, new each time and not set to anything: valgrind knows its
//! ends, and knows what was stored in it.

use super::memory::Memory;
use std::alloc::{alloc, dealloc, handle_alloc_error, Layout};
use std::mem;

pub struct Heap {
    start: *mut u8,
    layout: Layout,
}

impl Heap {
    pub fn empty() -> Heap {
        Heap::of(0)
    }

    /// Octets in any number; such as numbers have stand where numbers may.
    fn of(octets: usize) -> Heap {
        let align = if octets % mem::align_of::<u64>() == 0 { mem::align_of::<u64>() } else { 1 };
        let layout = Layout::from_size_align(octets, align).expect("a size");
        if octets == 0 {
            return Heap { start: align as *mut u8, layout };
        }
        // SAFETY: the size is not 0.
        let start = unsafe { alloc(layout) };
        if start.is_null() {
            handle_alloc_error(layout);
        }
        Heap { start, layout }
    }
}

impl Memory for Heap {
    const FILLS: bool = false;

    fn take(&mut self, octets: usize) -> *mut u8 {
        *self = Heap::of(octets);
        self.start
    }

    fn seal(&mut self) {}
}

impl Drop for Heap {
    fn drop(&mut self) {
        if self.layout.size() > 0 {
            // SAFETY: it was allocated by this layout.
            unsafe { dealloc(self.start, self.layout) };
        }
    }
}
