//! Memory between two pages that nobody may touch: a byte read or written past either end of it ends
//! the run.

use std::ffi::c_void;
use std::slice;

const PAGE: usize = 4096;
const NOTHING: i32 = 0;
const READ_WRITE: i32 = 3;
const PRIVATE_ANONYMOUS: i32 = 0x22;

extern "C" {
    fn mmap(
        at: *mut c_void,
        size: usize,
        rights: i32,
        flags: i32,
        file: i32,
        from: i64,
    ) -> *mut c_void;
    fn mprotect(at: *mut c_void, size: usize, rights: i32) -> i32;
}

/// Which end of a room a slice lies at.
#[derive(Clone, Copy, Debug, PartialEq, Eq)]
pub enum Side {
    Front,
    Back,
}

pub struct Room {
    start: *mut u8,
    size: usize,
}

// Its memory belongs to it alone.
unsafe impl Send for Room {}

impl Room {
    /// A room of so many pages; it lasts as long as the program.
    pub fn new(pages: usize) -> Room {
        let size = pages * PAGE;
        // New memory, which nothing else knows of.
        unsafe {
            let whole =
                mmap(std::ptr::null_mut(), size + 2 * PAGE, NOTHING, PRIVATE_ANONYMOUS, -1, 0);
            assert!(whole as isize != -1, "no memory");
            let start = whole.cast::<u8>().add(PAGE);
            assert_eq!(mprotect(start.cast(), size, READ_WRITE), 0, "no memory");
            Room { start, size }
        }
    }

    pub fn size(&self) -> usize {
        self.size
    }

    /// Where a slice of this length lies that touches the page before or behind the room.
    pub fn place(&self, length: usize, side: Side) -> usize {
        assert!(length <= self.size, "the room is too small");
        match side {
            Side::Front => 0,
            Side::Back => self.size - length,
        }
    }

    /// A pointer into the room, or to its end.
    pub fn at(&mut self, place: usize) -> *mut u8 {
        assert!(place <= self.size);
        // Within the room or at its end, by the line above.
        unsafe { self.start.add(place) }
    }

    pub fn bytes(&mut self) -> &mut [u8] {
        // The room's own memory, lent with the room.
        unsafe { slice::from_raw_parts_mut(self.start, self.size) }
    }

    /// Puts the bytes at one end and gives their place.
    pub fn put(&mut self, bytes: &[u8], side: Side) -> usize {
        let place = self.place(bytes.len(), side);
        self.bytes()[place..place + bytes.len()].copy_from_slice(bytes);
        place
    }
}
