//! Memory that a buffer is lent from.

use super::exports::Lent;
use std::{mem, ptr, slice};

/// Memory for one buffer at a time.
pub trait Memory {
    /// Whether rooms are filled before they are lent. Where they are not, they hold nothing that may be read.
    const FILLS: bool;

    /// So many octets, which may be written. Those that were taken before are there no longer.
    fn take(&mut self, octets: usize) -> *mut u8;

    /// What was taken may only be read from now on, where the memory can have it so.
    fn seal(&mut self);
}

/// What a room is made of: numbers or octets.
pub trait Kept: Copy + PartialEq + std::fmt::Debug {
    /// What a room is full of before the call.
    const FILLER: Self;
}

impl Kept for u64 {
    const FILLER: u64 = 0xa5a5_5a5a_c3c3_3c3c;
}

impl Kept for u8 {
    const FILLER: u8 = 0xa5;
}

/// A buffer for reading with these elements and nothing else.
pub fn input<M: Memory, T: Kept>(memory: &mut M, elements: &[T]) -> Lent<T> {
    let start = memory.take(mem::size_of_val(elements)).cast::<T>();
    // SAFETY: the memory gave as many octets as the elements have.
    unsafe { ptr::copy_nonoverlapping(elements.as_ptr(), start, elements.len()) };
    memory.seal();
    Lent { start, len: elements.len() }
}

/// A room for so many elements and nothing else.
pub fn room<M: Memory, T: Kept>(memory: &mut M, len: usize) -> Lent<T> {
    let start = memory.take(len * mem::size_of::<T>()).cast::<T>();
    for at in 0..if M::FILLS { len } else { 0 } {
        // SAFETY: the memory gave octets for `len` elements.
        unsafe { start.add(at).write(T::FILLER) };
    }
    Lent { start, len }
}

/// Whether the room begins with what was to be stored and is otherwise as it was.
pub fn holds<M: Memory, T: Kept>(room: Lent<T>, stored: &[T]) -> bool {
    let known = if M::FILLS { room.len } else { stored.len() };
    // SAFETY: a room that was filled has elements from end to end; else it has those that the call says it stored.
    let (first, rest) = unsafe { slice::from_raw_parts(room.start, known) }.split_at(stored.len());
    first == stored && rest.iter().all(|&element| element == T::FILLER)
}
