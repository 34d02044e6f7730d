//! Memory to lend to the library. An area lies between two pages that may not be touched, so that a read or a write outside a
//! buffer laid against an end of its area stops the program; the bytes beside the buffer inside the area are guard bytes and are
//! compared after the call.

use std::ffi::c_void;
use std::sync::atomic::{AtomicU64, Ordering};

extern "C" {
    fn mmap(address: *mut c_void, length: usize, protection: i32, flags: i32, file: i32, offset: i64) -> *mut c_void;
    fn mprotect(address: *mut c_void, length: usize, protection: i32) -> i32;
    fn signal(number: i32, handler: usize) -> usize;
    fn write(file: i32, bytes: *const u8, length: usize) -> isize;
    fn _exit(status: i32) -> !;
}

const NONE: i32 = 0;
const READ: i32 = 1;
const READ_WRITE: i32 = 3;
const PRIVATE_ANONYMOUS_NORESERVE: i32 = 0x2 | 0x20 | 0x4000;
const PAGE: usize = 4096;
const GUARD: usize = 64;

fn map(length: usize, protection: i32) -> Option<*mut u8> {
    let at = unsafe { mmap(std::ptr::null_mut(), length, protection, PRIVATE_ANONYMOUS_NORESERVE, -1, 0) };
    (at as isize != -1).then_some(at as *mut u8)
}

/// Bytes that read as zero and may not be written, more than a pair's longest image file. Only pages that are read take memory.
pub fn zeros(length: usize) -> &'static [u8] {
    let at = map(length, READ).expect("address space for zero bytes");
    unsafe { std::slice::from_raw_parts(at, length) }
}

/// Bytes that may not even be read.
pub fn closed(length: usize) -> *mut u8 {
    map(length, NONE).expect("address space for closed bytes")
}

/// A file that is longer than memory: all but its first bytes are zero and may not be written.
pub struct Tall {
    base: *mut u8,
    length: usize,
}

impl Tall {
    /// The first bytes, which may be other than zero.
    const FRONT: usize = 1 << 14;

    pub fn new(length: usize) -> Tall {
        let base = zeros(length).as_ptr() as *mut u8;
        let open = unsafe { mprotect(base as *mut c_void, Tall::FRONT, READ_WRITE) };
        assert_eq!(open, 0, "memory for a file's front");
        Tall { base, length }
    }

    /// The whole file with this front.
    pub fn with(&mut self, front: &[u8]) -> &[u8] {
        let room = unsafe { std::slice::from_raw_parts_mut(self.base, Tall::FRONT) };
        room[..front.len()].copy_from_slice(front);
        room[front.len()..].fill(0);
        unsafe { std::slice::from_raw_parts(self.base, self.length) }
    }
}

#[derive(Clone, Copy, PartialEq, Debug)]
pub enum Where {
    /// Right after the untouchable page.
    Front,
    /// Right before the untouchable page.
    Back,
    /// So many bytes into the area, guard bytes on both sides.
    Inside(usize),
    /// NULL, for an empty buffer only.
    Null,
}

pub struct Area {
    base: *mut u8,
    length: usize,
}

/// A buffer in an area.
#[derive(Clone, Copy)]
pub struct Lent {
    at: usize,
    pub length: usize,
    pub pointer: *mut u8,
}

fn guard_byte(at: usize) -> u8 {
    (at as u64).wrapping_mul(0x9e37_79b9_7f4a_7c15).to_be_bytes()[0]
}

impl Area {
    pub fn new(length: usize) -> Area {
        let length = length.next_multiple_of(PAGE);
        let low = map(length + 2 * PAGE, NONE).expect("address space for an area");
        let base = unsafe { low.add(PAGE) };
        let open = unsafe { mprotect(base as *mut c_void, length, READ_WRITE) };
        assert_eq!(open, 0, "memory for an area");
        Area { base, length }
    }

    fn bytes(&self, from: usize, to: usize) -> &[u8] {
        unsafe { std::slice::from_raw_parts(self.base.add(from), to - from) }
    }

    fn bytes_mut(&mut self, from: usize, to: usize) -> &mut [u8] {
        unsafe { std::slice::from_raw_parts_mut(self.base.add(from), to - from) }
    }

    /// The guard bytes before and after the buffer.
    fn guards(&self, lent: &Lent) -> [(usize, usize); 2] {
        let end = lent.at + lent.length;
        [(lent.at.saturating_sub(GUARD), lent.at), (end, (end + GUARD).min(self.length))]
    }

    pub fn lend(&mut self, content: &[u8], place: Where) -> Lent {
        let at = match place {
            Where::Front | Where::Null => 0,
            Where::Back => self.length - content.len(),
            Where::Inside(at) => at.min(self.length - content.len()),
        };
        let pointer = match place {
            Where::Null => std::ptr::null_mut(),
            _ => unsafe { self.base.add(at) },
        };
        assert!(!pointer.is_null() || content.is_empty());
        let lent = Lent { at, length: content.len(), pointer };
        self.bytes_mut(at, at + content.len()).copy_from_slice(content);
        for (from, to) in self.guards(&lent) {
            self.bytes_mut(from, to).iter_mut().zip(from..).for_each(|(byte, at)| *byte = guard_byte(at));
        }
        lent
    }

    pub fn content(&self, lent: &Lent) -> &[u8] {
        self.bytes(lent.at, lent.at + lent.length)
    }

    pub fn guards_kept(&self, lent: &Lent) -> bool {
        self.guards(lent)
            .iter()
            .all(|&(from, to)| self.bytes(from, to).iter().zip(from..).all(|(&byte, at)| byte == guard_byte(at)))
    }
}

/// The case that is running, for the message below.
pub static RUNNING: AtomicU64 = AtomicU64::new(0);

extern "C" fn stopped(_: i32) {
    let message = format!("differential: case {} touched memory that it was not lent\n", RUNNING.load(Ordering::Relaxed));
    unsafe {
        write(1, message.as_ptr(), message.len());
        _exit(1)
    }
}

/// Names the running case when the program touches memory that it may not.
pub fn watch() {
    const SIGBUS: i32 = 7;
    const SIGSEGV: i32 = 11;
    let handler = stopped as extern "C" fn(i32) as usize;
    for number in [SIGBUS, SIGSEGV] {
        unsafe { signal(number, handler) };
    }
}
