//! Memory between two pages that may be neither read nor written, and word of the call in which one was touched all the
//! same. The one place here with unsafe code.
#![allow(unsafe_code)]

use std::cell::Cell;
use std::fmt::Write;

/// A multiple of the size of a page on every machine that this is for.
const STEP: usize = 65_536;

const PROT_NONE: i32 = 0;
const PROT_READ_WRITE: i32 = 3;
const MAP_PRIVATE_ANONYMOUS: i32 = 0x22;
const SIGBUS: i32 = 7;
const SIGSEGV: i32 = 11;

// Of the C library, with the numbers above as Linux has them.
extern "C" {
    fn mmap(start: *mut u8, len: usize, may: i32, flags: i32, file: i32, offset: i64) -> *mut u8;
    fn mprotect(start: *mut u8, len: usize, may: i32) -> i32;
    fn munmap(start: *mut u8, len: usize) -> i32;
    fn signal(number: i32, handler: usize) -> usize;
    fn write(file: i32, bytes: *const u8, len: usize) -> isize;
    fn _exit(status: i32) -> !;
}

/// Bytes that may be used, with a page on both sides that may not.
pub struct Pages {
    start: *mut u8,
    len: usize,
}

impl Pages {
    /// At least so many bytes.
    pub fn new(least: usize) -> Pages {
        let len = least.next_multiple_of(STEP).max(STEP);
        // SAFETY: a new mapping of its own, of which only what lies between the two ends is made usable.
        let start = unsafe {
            let whole = mmap(std::ptr::null_mut(), len + 2 * STEP, PROT_NONE, MAP_PRIVATE_ANONYMOUS, -1, 0);
            assert!(!whole.is_null() && whole as isize != -1, "no memory to lend");
            let start = whole.add(STEP);
            assert_eq!(mprotect(start, len, PROT_READ_WRITE), 0, "no memory to lend");
            start
        };
        Pages { start, len }
    }

    /// All of it, as numbers of one kind.
    pub fn all<T: Plain>(&mut self) -> &mut [T] {
        // SAFETY: the mapping lives as long as `self`, is borrowed as long as the slice, and begins as zeros; any bytes
        // are a number, and both ends of a page are a multiple of its width.
        unsafe { std::slice::from_raw_parts_mut(self.start.cast(), self.len / size_of::<T>()) }
    }
}

/// Numbers that can be lent: any bytes of their width are one.
pub trait Plain: Copy + PartialEq + kinds::Kind {
    /// What stands beside what is lent.
    const BESIDE: Self;
}

impl Plain for u8 {
    const BESIDE: u8 = 0xa5;
}

impl Plain for u32 {
    const BESIDE: u32 = 0xa5a5_a5a5;
}

impl Plain for u64 {
    const BESIDE: u64 = 0xa5a5_a5a5_a5a5_a5a5;
}

/// Nobody else can say of a type that it is plain.
mod kinds {
    pub trait Kind {}
    impl Kind for u8 {}
    impl Kind for u32 {}
    impl Kind for u64 {}
}

impl Drop for Pages {
    fn drop(&mut self) {
        // SAFETY: the very mapping that was made, and nothing borrows it any more.
        unsafe {
            munmap(self.start.sub(STEP), self.len + 2 * STEP);
        }
    }
}

thread_local! {
    static CURRENT: Cell<(u64, u64)> = const { Cell::new((0, 0)) };
}

/// This thread now makes this call of this seed.
pub fn making(seed: u64, index: u64) {
    CURRENT.set((seed, index));
}

/// The seed and the call that this thread makes.
pub fn made() -> (u64, u64) {
    CURRENT.get()
}

/// From now on, touching a page that may not be touched names the call before the program ends.
pub fn tell_of_touched_pages() {
    // SAFETY: the handler calls only what may be called in one, and does not return.
    unsafe {
        signal(SIGSEGV, touched as *const () as usize);
        signal(SIGBUS, touched as *const () as usize);
    }
}

extern "C" fn touched(_: i32) {
    let mut text = Line { bytes: [0; 128], len: 0 };
    let (seed, index) = CURRENT.get();
    let _ = writeln!(text, "memory that was not lent was touched, in the call of: differ --replay {seed} {index}");
    // SAFETY: the bytes are there, and the program ends.
    unsafe {
        write(2, text.bytes.as_ptr(), text.len);
        _exit(1)
    }
}

/// A line of text that needs no memory of its own.
struct Line {
    bytes: [u8; 128],
    len: usize,
}

impl Write for Line {
    fn write_str(&mut self, text: &str) -> std::fmt::Result {
        let fits = text.len().min(self.bytes.len() - self.len);
        self.bytes[self.len..self.len + fits].copy_from_slice(&text.as_bytes()[..fits]);
        self.len += fits;
        Ok(())
    }
}

#[cfg(test)]
mod tests {
    use super::*;

    #[test]
    fn all_of_it_can_be_used() {
        let mut pages = Pages::new(STEP + 1);
        assert_eq!(pages.all::<u8>().len(), 2 * STEP);
        pages.all::<u8>().fill(7);
        assert!(pages.all::<u32>().iter().all(|&word| word == 0x0707_0707));
    }
}
