//! Memory that ends at pages which cannot be read or written, so that a call that goes beyond a buffer is stopped.
use std::cell::RefCell;
use std::ffi::{c_int, c_void};
use std::ptr;
use std::slice;

/// The bytes of a stretch between two shut pages: as much as the largest buffers take, which are of 15 blocks of
/// 65,535 bytes, an L out of range, and some more.
pub const ROOM: usize = 1 << 21;

const PAGE: usize = 4096;

unsafe extern "C" {
    fn mmap(
        at: *mut c_void,
        len: usize,
        access: c_int,
        kind: c_int,
        file: c_int,
        from: i64,
    ) -> *mut c_void;
    fn mprotect(at: *mut c_void, len: usize, access: c_int) -> c_int;
}

/// On Linux: PROT_NONE, PROT_READ | PROT_WRITE, and MAP_PRIVATE | MAP_ANONYMOUS.
const SHUT: c_int = 0;
const OPEN: c_int = 3;
const OF_NO_FILE: c_int = 0x22;

/// The first of `ROOM` bytes.
#[derive(Clone, Copy)]
struct Stretch(*mut u8);

thread_local! {
    // a stretch is mapped once and lent again and again, as mapping takes longer than a call
    static FREE: RefCell<Vec<Stretch>> = const { RefCell::new(Vec::new()) };
}

fn map_stretch() -> Stretch {
    // SAFETY: maps new memory, and opens all of it but its first and its last page.
    let first = unsafe {
        let start = mmap(ptr::null_mut(), PAGE + ROOM + PAGE, SHUT, OF_NO_FILE, -1, 0);
        assert_ne!(start.addr(), usize::MAX, "memory for a buffer");
        let first = start.byte_add(PAGE);
        assert_eq!(mprotect(first, ROOM, OPEN), 0);
        first
    };
    Stretch(first.cast())
}

/// So many bytes at the start of a stretch or at its end.
pub struct Pages {
    stretch: Stretch,
    from: usize,
    len: usize,
}

impl Pages {
    pub fn at_start(len: usize) -> Pages {
        Pages::new(0, len)
    }

    pub fn at_end(len: usize) -> Pages {
        Pages::new(ROOM - len, len)
    }

    fn new(from: usize, len: usize) -> Pages {
        assert!(len <= ROOM, "{len} bytes are more than a stretch has");
        let free = FREE.with_borrow_mut(Vec::pop);
        Pages {
            stretch: free.unwrap_or_else(map_stretch),
            from,
            len,
        }
    }

    pub fn bytes(&self) -> &[u8] {
        // SAFETY: the stretch is this value's alone until it is dropped, open, and holds zeros or what was written.
        unsafe { slice::from_raw_parts(self.stretch.0.add(self.from), self.len) }
    }

    pub fn bytes_mut(&mut self) -> &mut [u8] {
        // SAFETY: as above.
        unsafe { slice::from_raw_parts_mut(self.stretch.0.add(self.from), self.len) }
    }
}

impl Drop for Pages {
    fn drop(&mut self) {
        FREE.with_borrow_mut(|free| free.push(self.stretch));
    }
}
