//! Memory that is lent to the library: a buffer against a page that nothing may touch, and what it should hold after a
//! call.

use std::ptr::null_mut;
use std::slice::from_raw_parts_mut;

extern "C" {
    fn mmap(near: *mut u8, length: usize, protection: i32, flags: i32, file: i32, offset: i64) -> *mut u8;
    fn mprotect(start: *mut u8, length: usize, protection: i32) -> i32;
}

/// The octets beside a buffer that are compared too. (Also, libc compares fewer octets than these by a masked load,
/// which is slow where it reaches over a fence.)
pub const MARGIN: usize = 64;

pub struct Lent {
    /// Pages between two fences.
    pages: &'static mut [u8],
    /// Where the buffer and its margin begin in the pages.
    from: usize,
    /// Where the buffer begins among the two.
    start: usize,
    /// What the two should hold.
    expected: Vec<u8>,
}

impl Lent {
    pub fn new(longest: usize) -> Self {
        const PAGE: usize = 4096;
        let length = (longest + MARGIN).next_multiple_of(PAGE);
        // SAFETY: fresh memory that is never unmapped. The numbers are x86-64 Linux's: no access, private and
        // anonymous, and then read and write.
        let pages = unsafe {
            let map = mmap(null_mut(), length + 2 * PAGE, 0, 0x22, -1, 0);
            assert!(map as isize != -1 && mprotect(map.add(PAGE), length, 3) == 0, "no memory");
            from_raw_parts_mut(map.add(PAGE), length)
        };
        Lent { pages, from: 0, start: 0, expected: Vec::new() }
    }

    /// Makes a buffer with this content, which ends at the upper fence or begins at the lower one.
    pub fn lend(&mut self, content: &[u8], at_end: bool, margin: u8) {
        let whole = content.len() + MARGIN;
        (self.from, self.start) = if at_end { (self.pages.len() - whole, MARGIN) } else { (0, 0) };
        self.expected.clear();
        self.expected.resize(whole, margin);
        self.expect(0, content);
        self.pages[self.from..][..whole].copy_from_slice(&self.expected);
    }

    /// These octets should stand from a position on, and the rest be as it was lent.
    pub fn expect(&mut self, at: usize, written: &[u8]) {
        self.expected[self.start + at..][..written.len()].copy_from_slice(written);
    }

    pub fn buffer(&mut self) -> &mut [u8] {
        let room = self.expected.len() - MARGIN;
        &mut self.pages[self.from + self.start..][..room]
    }

    /// Margin and buffer, as they should be and as they are.
    pub fn compared(&self) -> (&[u8], &[u8]) {
        (&self.expected, &self.pages[self.from..][..self.expected.len()])
    }
}
