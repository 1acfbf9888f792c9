//! Fenced buffers. Each ends at a page that cannot be touched and has marked
//! bytes before it, which are compared with it.

use std::ffi::{c_char, c_int, c_void};
use std::ptr::null_mut;

/// The marked bytes before a buffer.
pub const MARKED: usize = 64;

/// No page is larger.
const PAGE: usize = 65_536;

const PROT_NONE: c_int = 0;
const PROT_READ: c_int = 1;
const PROT_WRITE: c_int = 2;
const MAP_SHARED: c_int = 1;
const MAP_PRIVATE: c_int = 2;
const MAP_FIXED: c_int = 0x10;
const MAP_ANONYMOUS: c_int = 0x20;

unsafe extern "C" {
    fn memfd_create(name: *const c_char, flags: u32) -> c_int;
    fn ftruncate(file: c_int, length: i64) -> c_int;
    fn close(file: c_int) -> c_int;
    fn mmap(
        at: *mut c_void,
        length: usize,
        protection: c_int,
        flags: c_int,
        file: c_int,
        offset: i64,
    ) -> *mut c_void;
    fn munmap(at: *mut c_void, length: usize) -> c_int;
}

/// Memory seen twice: as the harness fills and compares it, and as the library gets it.
pub struct Fenced {
    ours: *mut u8,
    theirs: *mut u8,
    capacity: usize,
    length: usize,
}

impl Fenced {
    /// A buffer that the library may write.
    pub fn writable(capacity: usize) -> Fenced {
        Fenced::new(capacity, PROT_READ | PROT_WRITE)
    }

    /// An input: a write to it is a fault.
    pub fn read_only(capacity: usize) -> Fenced {
        Fenced::new(capacity, PROT_READ)
    }

    fn new(capacity: usize, protection: c_int) -> Fenced {
        let capacity = (capacity + MARKED).next_multiple_of(PAGE);
        // SAFETY: the file and both views of it are this function's own.
        unsafe {
            let file = memfd_create(c"buffer".as_ptr(), 0);
            assert!(file >= 0, "memory for a buffer");
            assert_eq!(ftruncate(file, capacity as i64), 0);
            let ours = view(file, capacity, PROT_READ | PROT_WRITE);
            let theirs = view(file, capacity, protection);
            close(file);
            Fenced {
                ours,
                theirs,
                capacity,
                length: 0,
            }
        }
    }

    /// Fills the buffer and gives the pointer to hold.
    pub fn hold(&mut self, bytes: &[u8]) -> *mut u8 {
        assert!(MARKED + bytes.len() <= self.capacity, "a longer buffer");
        self.length = bytes.len();
        let start = self.capacity - bytes.len();
        // SAFETY: both ranges end at or before the capacity.
        unsafe {
            let marks = self.ours.add(start - MARKED);
            marks.copy_from_nonoverlapping(MARKS.as_ptr(), MARKED);
            let at = self.ours.add(start);
            at.copy_from_nonoverlapping(bytes.as_ptr(), bytes.len());
            self.theirs.add(start)
        }
    }

    /// As `hold`; an empty buffer's pointer is null.
    pub fn hold_or_null(&mut self, bytes: &[u8]) -> *mut u8 {
        let pointer = self.hold(bytes);
        if bytes.is_empty() {
            null_mut()
        } else {
            pointer
        }
    }

    /// The marked bytes and the buffer as they are now.
    pub fn state(&self) -> Vec<u8> {
        let length = MARKED + self.length;
        // SAFETY: the range ends at the capacity.
        unsafe {
            let start = self.ours.add(self.capacity - length);
            std::slice::from_raw_parts(start, length).to_vec()
        }
    }
}

impl Drop for Fenced {
    fn drop(&mut self) {
        for view in [self.ours, self.theirs] {
            // SAFETY: `view` mapped this range, fences included.
            unsafe { munmap(view.sub(PAGE).cast(), self.capacity + 2 * PAGE) };
        }
    }
}

/// Maps a file between two fences.
unsafe fn view(file: c_int, length: usize, protection: c_int) -> *mut u8 {
    // SAFETY: the second mapping replaces a part of the first.
    unsafe {
        let around = length + 2 * PAGE;
        let unnamed = MAP_PRIVATE | MAP_ANONYMOUS;
        let fence = mmap(null_mut(), around, PROT_NONE, unnamed, -1, 0);
        assert_ne!(fence as isize, -1, "room for a buffer");
        let at = fence.cast::<u8>().add(PAGE);
        let mapped = mmap(
            at.cast(),
            length,
            protection,
            MAP_SHARED | MAP_FIXED,
            file,
            0,
        );
        assert_eq!(mapped.cast(), at, "a view of a buffer");
        at
    }
}

/// No two neighbours are the same, and none is 0.
const MARKS: [u8; MARKED] = {
    let mut marks = [0; MARKED];
    let mut index = 0;
    while index < MARKED {
        marks[index] = (index as u8).wrapping_mul(37) | 1;
        index += 1;
    }
    marks
};

/// The state of an untouched buffer that holds these bytes.
pub fn state_of(bytes: &[u8]) -> Vec<u8> {
    [&MARKS, bytes].concat()
}
