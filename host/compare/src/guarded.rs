//! Lent memory with guards: a page that nobody may touch right before it or right behind it, and known bytes on the other
//! side. A read or write outside ends the program or is seen by [`Guarded::intact`].

use std::ffi::{c_int, c_long, c_void};
use std::ptr;

/// The pages of x86-64, the one machine that the library is compiled for.
const PAGE: usize = 4096;

/// What stands in the bytes beside the lent ones.
const MARK: u8 = 0xa5;

// Of Linux: the pages may be read and written, belong to this process alone, stand for no file, are reserved when touched.
const READ_WRITE: c_int = 1 | 2;
const PRIVATE_ANONYMOUS: c_int = 0x02 | 0x20 | 0x4000;

unsafe extern "C" {
    fn mmap(
        at: *mut c_void,
        length: usize,
        may: c_int,
        flags: c_int,
        file: c_int,
        offset: c_long,
    ) -> *mut c_void;
    fn mprotect(at: *mut c_void, length: usize, may: c_int) -> c_int;
    fn munmap(at: *mut c_void, length: usize) -> c_int;
}

/// The side on which a page that may not be touched is next to the lent bytes.
#[derive(Clone, Copy, Debug, PartialEq, Eq)]
pub enum Side {
    /// Right before them.
    Before,
    /// Right behind them.
    Behind,
}

/// Lent bytes, zeros at first, with their guards.
pub struct Guarded {
    /// One page that may not be touched, pages that may, and one that may not.
    pages: *mut u8,
    /// How many bytes may be touched: whole pages.
    room: usize,
    side: Side,
    length: usize,
}

impl Guarded {
    /// That many zeros.
    ///
    /// # Panics
    /// Where the system has no such memory.
    pub fn zeros(length: usize, side: Side) -> Self {
        let room = length.next_multiple_of(PAGE);
        // SAFETY: a fresh mapping at a place that the system chooses; inside it, all but the first and the last page are opened.
        let pages = unsafe {
            let pages = mmap(
                ptr::null_mut(),
                room + 2 * PAGE,
                0,
                PRIVATE_ANONYMOUS,
                -1,
                0,
            );
            assert_ne!(pages as isize, -1, "no memory for {length} bytes");
            let open = mprotect(pages.byte_add(PAGE), room, READ_WRITE);
            assert_eq!(open, 0, "the pages are opened");
            pages.cast()
        };
        let mut guarded = Guarded {
            pages,
            room,
            side,
            length,
        };
        let lent = guarded.lent();
        guarded.open_mut()[..lent.start].fill(MARK);
        guarded.open_mut()[lent.end..].fill(MARK);
        guarded
    }

    /// A copy of these bytes.
    pub fn copy(bytes: &[u8], side: Side) -> Self {
        let mut guarded = Guarded::zeros(bytes.len(), side);
        guarded.bytes_mut().copy_from_slice(bytes);
        guarded
    }

    /// Where the lent bytes stand among those that may be touched.
    fn lent(&self) -> std::ops::Range<usize> {
        match self.side {
            Side::Before => 0..self.length,
            Side::Behind => self.room - self.length..self.room,
        }
    }

    fn open(&self) -> &[u8] {
        // SAFETY: the mapping's open pages, which live as long as this value and change by `open_mut` alone.
        unsafe { std::slice::from_raw_parts(self.pages.add(PAGE), self.room) }
    }

    fn open_mut(&mut self) -> &mut [u8] {
        // SAFETY: as in `open`; they are lent by `&mut self`, and so to nobody else.
        unsafe { std::slice::from_raw_parts_mut(self.pages.add(PAGE), self.room) }
    }

    /// The lent bytes.
    pub fn bytes(&self) -> &[u8] {
        &self.open()[self.lent()]
    }

    /// The lent bytes, to be changed.
    pub fn bytes_mut(&mut self) -> &mut [u8] {
        let lent = self.lent();
        &mut self.open_mut()[lent]
    }

    /// Whether the bytes beside the lent ones are as they were.
    pub fn intact(&self) -> bool {
        let lent = self.lent();
        let (before, behind) = (&self.open()[..lent.start], &self.open()[lent.end..]);
        before.iter().chain(behind).all(|&byte| byte == MARK)
    }
}

impl Drop for Guarded {
    fn drop(&mut self) {
        // SAFETY: the whole mapping, made in `zeros`, and nothing borrows from it any more.
        unsafe { munmap(self.pages.cast(), self.room + 2 * PAGE) };
    }
}
