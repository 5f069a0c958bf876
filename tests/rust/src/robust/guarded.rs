//! Memory between pages that may not be touched, and that may itself be closed to writing. Who does either is killed.

use super::memory::Memory;
use crate::report::same;
use std::os::raw::{c_int, c_void};
use std::ptr;

extern "C" {
    fn mmap(at: *mut c_void, len: usize, access: c_int, flags: c_int, file: c_int, offset: i64) -> *mut c_void;
    fn mprotect(start: *mut c_void, len: usize, access: c_int) -> c_int;
    fn munmap(start: *mut c_void, len: usize) -> c_int;
    fn pipe(ends: *mut c_int) -> c_int;
    fn read(end: c_int, octets: *mut c_void, len: usize) -> isize;
    fn write(end: c_int, octets: *const c_void, len: usize) -> isize;
    fn close(end: c_int) -> c_int;
}

const NONE: c_int = 0;
const READ: c_int = 1;
const READ_AND_WRITE: c_int = 3;
/// Private to the process, and of no file.
const ANONYMOUS: c_int = 0x22;
const NO_FILE: c_int = -1;

/// Every size of a page divides it.
const PAGES: usize = 1 << 16;
/// Octets of a guard: more than a message has, so that no offset in one leads past it.
const GUARD: usize = 1 << 20;

/// Where the buffer touches a guard.
#[derive(Clone, Copy)]
pub enum Side {
    /// Its last octet stands against one.
    End,
    /// Its first octet stands just behind one.
    Start,
}

impl Side {
    pub fn name(self) -> &'static str {
        match self {
            Side::End => "that end at a guard",
            Side::Start => "that start at a guard",
        }
    }
}

/// `len` octets with a guard on either side.
pub struct Guarded {
    side: Side,
    start: *mut u8,
    len: usize,
    access: c_int,
}

impl Guarded {
    pub fn at(side: Side) -> Guarded {
        Guarded::of(side, PAGES)
    }

    fn of(side: Side, len: usize) -> Guarded {
        // SAFETY: asks for pages that nobody has.
        let pages = unsafe { mmap(ptr::null_mut(), GUARD + len + GUARD, NONE, ANONYMOUS, NO_FILE, 0) };
        assert_ne!(pages as isize, -1, "mmap");
        Guarded { side, start: (pages as *mut u8).wrapping_add(GUARD), len, access: NONE }
    }

    fn allow(&mut self, access: c_int) {
        if access != self.access {
            // SAFETY: the pages are this memory's own, and nothing of Rust's stands in them.
            assert_eq!(unsafe { mprotect(self.start.cast(), self.len, access) }, 0, "mprotect");
            self.access = access;
        }
    }
}

impl Memory for Guarded {
    const FILLS: bool = true;

    fn take(&mut self, octets: usize) -> *mut u8 {
        if octets > self.len {
            *self = Guarded::of(self.side, (octets + PAGES - 1) / PAGES * PAGES);
        }
        self.allow(READ_AND_WRITE);
        match self.side {
            Side::End => self.start.wrapping_add(self.len - octets),
            Side::Start => self.start,
        }
    }

    fn seal(&mut self) {
        self.allow(READ);
    }
}

impl Drop for Guarded {
    fn drop(&mut self) {
        // SAFETY: the pages are this memory's own.
        unsafe { munmap(self.start.wrapping_sub(GUARD).cast(), GUARD + self.len + GUARD) };
    }
}

/// Tries the guards and the seal. It asks the kernel, which says no and kills nobody.
pub fn fences_hold() -> Result<(), String> {
    let touch = Touch::new();
    for octets in [0, 1, 30, PAGES, PAGES + 1] {
        let mut ending = Guarded::at(Side::End);
        let past = ending.take(octets).wrapping_add(octets);
        same("octet past the end, and the guard's last", touch.both(past, GUARD - 1), [(false, false); 2])?;
        let mut starting = Guarded::at(Side::Start);
        let before = starting.take(octets).wrapping_sub(GUARD);
        same("the guard's first octet, and that before the start", touch.both(before, GUARD - 1), [(false, false); 2])?;
    }
    for side in [Side::End, Side::Start] {
        let mut memory = Guarded::at(side);
        let start = memory.take(30);
        same("ends of what was taken", touch.both(start, 29), [(true, true); 2])?;
        memory.seal();
        same("ends of what is sealed", touch.both(start, 29), [(true, false); 2])?;
        memory.take(30);
        same("ends of what is taken again", touch.both(start, 29), [(true, true); 2])?;
    }
    Ok(())
}

/// A pipe: the kernel reads an octet into it and writes it back, or says that it may not.
struct Touch {
    ends: [c_int; 2],
}

impl Touch {
    fn new() -> Touch {
        let mut ends = [0; 2];
        // SAFETY: `ends` has the two numbers that the call stores.
        assert_eq!(unsafe { pipe(ends.as_mut_ptr()) }, 0, "pipe");
        Touch { ends }
    }

    /// Whether the octet can be read, and whether it can be written.
    fn octet(&self, at: *mut u8) -> (bool, bool) {
        let mut through = 0u8;
        let [out, into] = self.ends;
        // SAFETY: one octet, which the kernel looks at first; what it writes there is an octet of a buffer.
        unsafe {
            let readable = write(into, at as *const c_void, 1) == 1;
            if !readable {
                write(into, (&through as *const u8).cast(), 1);
            }
            let writable = read(out, at.cast(), 1) == 1;
            if !writable {
                read(out, (&mut through as *mut u8).cast(), 1);
            }
            (readable, writable)
        }
    }

    /// The octet, and that so far behind it.
    fn both(&self, at: *mut u8, distance: usize) -> [(bool, bool); 2] {
        [self.octet(at), self.octet(at.wrapping_add(distance))]
    }
}

impl Drop for Touch {
    fn drop(&mut self) {
        for end in self.ends {
            // SAFETY: the pipe is this one's own.
            unsafe { close(end) };
        }
    }
}
