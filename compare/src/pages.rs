//! Memory to lend, amid pages that are closed: whoever reads or writes these, or
//! writes to what is lent only to be read, ends the process.

use btreap::Question;
use std::ffi::c_void;
use std::mem::size_of_val;
use std::ops::Range;
use std::os::raw::c_int;
use std::{ptr, slice};

const PAGE: usize = 4096;

/// The closed bytes on each side, more than anything that is lent has.
const CLOSED: usize = 16 << 20;

/// Where nothing can be lent: the lowest pages are closed in every process.
const NOWHERE: usize = PAGE;

const PROT_NONE: c_int = 0;
const PROT_READ: c_int = 1;
const PROT_WRITE: c_int = 2;
const MAP_PRIVATE: c_int = 0x02;
const MAP_ANONYMOUS: c_int = 0x20;
const MAP_NORESERVE: c_int = 0x4000;

extern "C" {
    fn mmap(
        address: *mut c_void,
        size: usize,
        access: c_int,
        flags: c_int,
        file: c_int,
        offset: i64,
    ) -> *mut c_void;
    fn mprotect(address: *mut c_void, size: usize, access: c_int) -> c_int;
    fn munmap(address: *mut c_void, size: usize) -> c_int;
}

/// Which end of the content touches a closed page. What lies between its other
/// end and the next closed page, less than a page, is painted.
#[derive(Clone, Copy, Debug, PartialEq, Eq)]
pub enum Flush {
    Start,
    End,
}

/// What the content is lent for.
#[derive(Clone, Copy, Debug, PartialEq, Eq)]
pub enum Access {
    Read,
    Write,
}

/// What can be lent: any bits are one.
pub trait Cell: Copy {}
impl Cell for u64 {}
impl Cell for i32 {}
impl Cell for u8 {}
impl Cell for Question {}

/// Some content in open pages of its own, as few as hold it.
pub struct Pages<T> {
    open: *mut u8,
    size: usize,
    painted: Range<usize>,
    start: *mut T,
    length: usize,
}

impl<T: Cell> Pages<T> {
    pub fn new(content: &[T], flush: Flush, access: Access) -> Pages<T> {
        let used = size_of_val(content);
        let size = (used + PAGE - 1) / PAGE * PAGE;
        let (offset, painted) = match flush {
            Flush::Start => (0, used..size),
            Flush::End => (size - used, 0..size - used),
        };
        let open = map(size);
        // SAFETY: both places are within the pages, which are ours; cells are
        // aligned there, since a page and a cell are whole numbers of what the cell
        // is aligned to.
        let start = unsafe {
            let paint = open.add(painted.start);
            ptr::copy_nonoverlapping(PAINT.as_ptr(), paint, painted.len());
            let start = open.add(offset).cast::<T>();
            ptr::copy_nonoverlapping(content.as_ptr(), start, content.len());
            start
        };
        if access == Access::Read {
            protect(open, size, PROT_READ);
        }
        Pages {
            open,
            size,
            painted,
            start,
            length: content.len(),
        }
    }

    /// The address to lend; in a closed page where there is no content.
    pub fn start(&self) -> *mut T {
        self.start
    }

    pub fn content(&self) -> &[T] {
        // SAFETY: `new` wrote it there, and any bits are a cell.
        unsafe { slice::from_raw_parts(self.start, self.length) }
    }

    /// Whether the paint beside the content is as it was.
    pub fn paint_holds(&self) -> bool {
        // SAFETY: the open pages, as `new` made them.
        let pages = unsafe { slice::from_raw_parts(self.open, self.size) };
        pages[self.painted.clone()] == PAINT[..self.painted.len()]
    }
}

impl<T> Drop for Pages<T> {
    fn drop(&mut self) {
        if self.size == 0 {
            return;
        }
        // SAFETY: what `map` made, which no one uses any more.
        let status = unsafe { munmap(self.open.sub(CLOSED).cast(), self.size + 2 * CLOSED) };
        assert_eq!(status, 0, "munmap");
    }
}

/// Opens so many bytes, whole pages of them, amid closed ones.
fn map(size: usize) -> *mut u8 {
    if size == 0 {
        return NOWHERE as *mut u8;
    }
    let flags = MAP_PRIVATE | MAP_ANONYMOUS | MAP_NORESERVE;
    // SAFETY: new memory of no file, and a place within it.
    let open = unsafe {
        let all = mmap(ptr::null_mut(), size + 2 * CLOSED, PROT_NONE, flags, -1, 0);
        assert_ne!(all as isize, -1, "mmap");
        all.cast::<u8>().add(CLOSED)
    };
    protect(open, size, PROT_READ | PROT_WRITE);
    open
}

/// Sets what may be done with pages that `map` opened.
fn protect(open: *mut u8, size: usize, access: c_int) {
    // SAFETY: changes no memory; who touches it otherwise than it may ends the process.
    let status = unsafe { mprotect(open.cast(), size, access) };
    assert_eq!(status, 0, "mprotect");
}

static PAINT: [u8; PAGE] = painted_page();

/// A page no two neighbours of which are alike.
const fn painted_page() -> [u8; PAGE] {
    let mut page = [0; PAGE];
    let mut place = 0;
    while place < PAGE {
        page[place] = (place * 59 + 0x3B) as u8;
        place += 1;
    }
    page
}
