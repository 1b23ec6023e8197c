//! Lent buffers with something on both sides that must not be touched.

use std::ops::{Deref, DerefMut};

extern "C" {
    fn mmap(address: *mut u8, length: usize, protection: i32, flags: i32, file: i32, offset: i64) -> *mut u8;
    fn munmap(address: *mut u8, length: usize) -> i32;
    fn mprotect(address: *mut u8, length: usize, protection: i32) -> i32;
}

const PAGE: usize = 4096;
const MARK: u8 = 0xA5;
static MARKS: [u8; PAGE] = [MARK; PAGE];

/// A buffer between two pages that trap on every access. It ends right before the second one; what is left between it and
/// the first one is filled with marks, which `untouched` looks at.
pub struct Guarded {
    base: *mut u8,
    pages: usize,
    length: usize,
}

// the memory belongs to this value alone
unsafe impl Send for Guarded {}

impl Guarded {
    pub fn new(length: usize) -> Guarded {
        let pages = length.div_ceil(PAGE).max(1);
        // SAFETY: a fresh private mapping of pages + 2 pages, whose first and last page are then closed.
        unsafe {
            let base = mmap(std::ptr::null_mut(), (pages + 2) * PAGE, 3, 0x22, -1, 0);
            assert!(base as isize != -1, "no memory");
            std::ptr::write_bytes(base.add(PAGE), MARK, pages * PAGE);
            assert_eq!(mprotect(base, PAGE, 0), 0);
            assert_eq!(mprotect(base.add((pages + 1) * PAGE), PAGE, 0), 0);
            Guarded { base, pages, length }
        }
    }

    pub fn of(bytes: &[u8]) -> Guarded {
        let mut buffer = Guarded::new(bytes.len());
        buffer.copy_from_slice(bytes);
        buffer
    }

    fn start(&self) -> usize {
        (self.pages + 1) * PAGE - self.length
    }

    /// The bytes between the first closed page and the buffer are as they were.
    pub fn untouched(&self) -> bool {
        // SAFETY: inside the open pages.
        let before = unsafe { std::slice::from_raw_parts(self.base.add(PAGE), self.start() - PAGE) };
        *before == MARKS[..before.len()]
    }
}

impl Deref for Guarded {
    type Target = [u8];
    fn deref(&self) -> &[u8] {
        // SAFETY: the last `length` bytes of the open pages.
        unsafe { std::slice::from_raw_parts(self.base.add(self.start()), self.length) }
    }
}

impl DerefMut for Guarded {
    fn deref_mut(&mut self) -> &mut [u8] {
        // SAFETY: as above, and `self` is borrowed for writing.
        unsafe { std::slice::from_raw_parts_mut(self.base.add(self.start()), self.length) }
    }
}

impl Clone for Guarded {
    fn clone(&self) -> Guarded {
        Guarded::of(self)
    }
}

impl Drop for Guarded {
    fn drop(&mut self) {
        // SAFETY: the mapping made in `new`.
        unsafe { munmap(self.base, (self.pages + 2) * PAGE) };
    }
}

/// What a test lends: by default a guarded buffer; with TESSLA_BUFFERS=heap a block of the heap of exactly this length, for
/// a run under valgrind, which sees every access outside it.
#[derive(Clone)]
pub enum Lent {
    Pages(Guarded),
    Heap(Box<[u8]>),
}

impl Lent {
    pub fn of(bytes: &[u8]) -> Lent {
        match std::env::var("TESSLA_BUFFERS").as_deref() {
            Ok("heap") => Lent::Heap(bytes.into()),
            _ => Lent::Pages(Guarded::of(bytes)),
        }
    }
    pub fn untouched(&self) -> bool {
        match self {
            Lent::Pages(pages) => pages.untouched(),
            Lent::Heap(_) => true,
        }
    }
}

impl Deref for Lent {
    type Target = [u8];
    fn deref(&self) -> &[u8] {
        match self {
            Lent::Pages(pages) => pages,
            Lent::Heap(block) => block,
        }
    }
}

impl DerefMut for Lent {
    fn deref_mut(&mut self) -> &mut [u8] {
        match self {
            Lent::Pages(pages) => pages,
            Lent::Heap(block) => block,
        }
    }
}
