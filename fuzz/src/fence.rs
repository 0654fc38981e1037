//! Bytes that end where the memory ends: one byte further on is a page that nothing may touch, so
//! that a read or a write past the end of what was lent stops the process.

use std::ffi::c_void;
use std::{ptr, slice};

const PAGE: usize = 4096;
const PROTECTED: i32 = 0;
const READ_AND_WRITE: i32 = 3;
const PRIVATE_ANONYMOUS: i32 = 0x22;

extern "C" {
    fn mmap(
        at: *mut c_void,
        len: usize,
        kind: i32,
        flags: i32,
        file: i32,
        from: i64,
    ) -> *mut c_void;
    fn mprotect(at: *mut c_void, len: usize, kind: i32) -> i32;
}

/// Room for so many bytes before the page.
pub struct Fenced {
    end: *mut u8,
    room: usize,
}

impl Fenced {
    pub fn new(most: usize) -> Self {
        let room = most.div_ceil(PAGE) * PAGE;
        // SAFETY: a new mapping of this process, which is never taken back.
        unsafe {
            let start = mmap(
                ptr::null_mut(),
                room + PAGE,
                READ_AND_WRITE,
                PRIVATE_ANONYMOUS,
                -1,
                0,
            );
            assert!(start as isize != -1, "no memory");
            let end = start.cast::<u8>().add(room);
            assert_eq!(mprotect(end.cast(), PAGE, PROTECTED), 0);
            Self { end, room }
        }
    }

    /// The last `size` bytes before the page.
    pub fn last(&mut self, size: usize) -> &mut [u8] {
        assert!(size <= self.room);
        // SAFETY: they lie in the mapping, and the borrow of `self` keeps them to one user.
        unsafe { slice::from_raw_parts_mut(self.end.sub(size), size) }
    }

    /// A copy of the bytes, which ends at the page.
    pub fn copy(&mut self, bytes: &[u8]) -> &[u8] {
        let place = self.last(bytes.len());
        place.copy_from_slice(bytes);
        place
    }
}
