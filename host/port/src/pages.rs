//! Pages that end where nothing may be read or written: a call that goes past them ends the run. The same bytes stand in two
//! places, in one of which they can be written and in the other only be read.

use std::cell::RefCell;
use std::ffi::{c_char, c_int, c_uint, c_void};
use std::ptr::null_mut;
use std::sync::atomic::{AtomicBool, Ordering::Relaxed};

extern "C" {
    fn mmap(at: *mut c_void, len: usize, may: c_int, how: c_int, file: c_int, from: i64) -> *mut c_void;
    fn memfd_create(name: *const c_char, how: c_uint) -> c_int;
    fn ftruncate(file: c_int, len: i64) -> c_int;
    fn close(file: c_int) -> c_int;
}

const READ: c_int = 1;
const WRITE: c_int = 2;
const SHARED: c_int = 0x01;
const PRIVATE: c_int = 0x02;
const FIXED: c_int = 0x10;
const ANONYMOUS: c_int = 0x20;

/// A multiple of every processor's page, and what lies between two places.
const STEP: usize = 1 << 16;

static USED: AtomicBool = AtomicBool::new(false);

/// From now on whatever is lent or given ends at the end of pages.
pub fn use_pages() {
    USED.store(true, Relaxed);
}

pub fn used() -> bool {
    USED.load(Relaxed)
}

#[derive(Clone, Copy)]
struct Places {
    written: *mut u8,
    read: *const u8,
    len: usize,
}

thread_local! {
    /// Those that nobody holds now: asking the system for each call would take long.
    static FREE: RefCell<Vec<Places>> = const { RefCell::new(vec![]) };
}

pub struct Pages(Places);

impl Pages {
    /// At least so many bytes.
    pub fn new(least: usize) -> Pages {
        let len = least.max(1).next_multiple_of(STEP);
        let free = FREE.with_borrow_mut(|free| {
            let place = free.iter().position(|places| places.len == len)?;
            Some(free.swap_remove(place))
        });
        Pages(free.unwrap_or_else(|| Places::new(len)))
    }

    pub fn len(&self) -> usize {
        self.0.len
    }

    /// Where they can be written. What follows their end cannot be touched.
    pub fn written(&self) -> *mut u8 {
        self.0.written
    }

    /// Where they can only be read. What follows their end cannot be touched.
    pub fn read(&self) -> *const u8 {
        self.0.read
    }
}

impl Drop for Pages {
    fn drop(&mut self) {
        // At the end of a thread the list may be gone already.
        let _ = FREE.try_with(|free| free.borrow_mut().push(self.0));
    }
}

impl Places {
    /// A stretch that cannot be touched, and in it the same bytes twice.
    fn new(len: usize) -> Places {
        let good = |at: *mut c_void| {
            assert!(at as isize != -1, "the system gives no pages");
            at.cast::<u8>()
        };
        // The system's own word on each of these is that they do not touch what others hold.
        unsafe {
            let file = memfd_create(c"lent".as_ptr(), 0);
            assert!(file >= 0 && ftruncate(file, len as i64) == 0, "the system gives no pages");
            let whole = good(mmap(null_mut(), 2 * len + 3 * STEP, 0, PRIVATE | ANONYMOUS, -1, 0));
            let (first, second) = (whole.add(STEP).cast(), whole.add(2 * STEP + len).cast());
            let written = good(mmap(first, len, READ | WRITE, SHARED | FIXED, file, 0));
            let read = good(mmap(second, len, READ, SHARED | FIXED, file, 0));
            close(file);
            Places { written, read, len }
        }
    }
}
