//! Memory between pages that cannot be touched: a call that reads or writes
//! before its first byte or behind its last one ends the program.

use std::ffi::{c_int, c_long, c_void};
use std::slice;

/// Bytes that can be touched, and as many on each side that cannot: whole
/// pages on every machine.
const ROOM: usize = 65_536;

const UNTOUCHABLE: c_int = 0;
const READ_AND_WRITE: c_int = 1 | 2;
const PRIVATE_AND_ANONYMOUS: c_int = 0x02 | 0x20;

extern "C" {
    fn mmap(
        address: *mut c_void,
        length: usize,
        protection: c_int,
        flags: c_int,
        file: c_int,
        offset: c_long,
    ) -> *mut c_void;
    fn mprotect(address: *mut c_void, length: usize, protection: c_int) -> c_int;
    fn munmap(address: *mut c_void, length: usize) -> c_int;
}

/// The memory.
pub struct Fenced {
    /// The first of the bytes that cannot be touched.
    all: *mut u8,
}

impl Fenced {
    #[allow(clippy::new_without_default)]
    pub fn new() -> Self {
        let flags = PRIVATE_AND_ANONYMOUS;
        // SAFETY: new memory, wherever it may be; its middle third is its own.
        let all = unsafe { mmap(std::ptr::null_mut(), 3 * ROOM, UNTOUCHABLE, flags, -1, 0) };
        assert_ne!(all as isize, -1, "memory in pages");
        let all = all.cast::<u8>();
        // SAFETY: as above.
        let failed = unsafe { mprotect(all.add(ROOM).cast(), ROOM, READ_AND_WRITE) };
        assert_eq!(failed, 0, "memory that can be written");
        Fenced { all }
    }

    /// The bytes that can be touched.
    fn middle(&mut self) -> &mut [u8] {
        // SAFETY: they are written by this one alone, which is lent mutably,
        // and hold zeros at first.
        unsafe { slice::from_raw_parts_mut(self.all.add(ROOM), ROOM) }
    }

    /// These bytes, with nothing before them.
    pub fn at_the_front(&mut self, bytes: &[u8]) -> &[u8] {
        let lent = &mut self.middle()[..bytes.len()];
        lent.copy_from_slice(bytes);
        lent
    }

    /// These bytes, with nothing behind them.
    pub fn at_the_end(&mut self, bytes: &[u8]) -> &mut [u8] {
        let lent = &mut self.middle()[ROOM - bytes.len()..];
        lent.copy_from_slice(bytes);
        lent
    }

    /// These words, with nothing behind them.
    pub fn words_at_the_end(&mut self, words: &[u32]) -> &mut [u32] {
        let first = ROOM - size_of_val(words);
        // SAFETY: any bytes are words.
        let (before, lent, behind) = unsafe { self.middle()[first..].align_to_mut::<u32>() };
        assert!(before.is_empty() && behind.is_empty(), "words in pages");
        lent.copy_from_slice(words);
        lent
    }
}

impl Drop for Fenced {
    fn drop(&mut self) {
        // SAFETY: the memory was got so and is lent to nobody.
        unsafe { munmap(self.all.cast(), 3 * ROOM) };
    }
}

#[cfg(test)]
mod tests {
    use super::*;

    /// Bytes and words end where the memory does, also where there are none.
    #[test]
    fn the_end_is_that_of_the_memory() {
        let mut fenced = Fenced::new();
        let end = fenced.middle().as_ptr_range().end;
        for length in [0, 1, 5, 4_096, ROOM / 4] {
            let words: Vec<u32> = (7..).take(length).collect();
            let lent = fenced.words_at_the_end(&words);
            assert_eq!(lent, words);
            assert_eq!(lent.as_ptr_range().end.cast(), end);
            let bytes = vec![9; length];
            let lent = fenced.at_the_end(&bytes);
            assert_eq!(lent, bytes);
            assert_eq!(lent.as_ptr_range().end, end);
        }
    }
}
