//! Memory to lend to the library, plain or with an inaccessible page right beside it.

use std::ffi::c_void;

extern "C" {
    fn mmap(address: *mut c_void, length: usize, protection: i32, flags: i32, file: i32, offset: i64) -> *mut c_void;
    fn mprotect(address: *mut c_void, length: usize, protection: i32) -> i32;
    fn munmap(address: *mut c_void, length: usize) -> i32;
}

/// The values that Linux gives these names.
const NO_ACCESS: i32 = 0;
const READ_AND_WRITE: i32 = 1 | 2;
const PRIVATE_AND_ANONYMOUS: i32 = 0x02 | 0x20;

/// The bytes of an inaccessible page; a multiple of every usual page size.
const PAGE: usize = 65536;

/// On which side of the lent words the inaccessible page lies.
#[derive(Clone, Copy, Debug, PartialEq, Eq)]
pub enum Edge {
    Plain,
    End,
    Start,
}

impl Edge {
    /// Every edge, with its name.
    pub const ALL: [(Edge, &'static str); 3] = [(Edge::Plain, "plain"), (Edge::End, "end"), (Edge::Start, "start")];

    /// The edge's name.
    pub fn name(self) -> &'static str {
        Edge::ALL[self as usize].1
    }
}

/// One page of words with an inaccessible page on each side; what is lent lies against the chosen edge.
pub struct Lent {
    edge: Edge,
    start: *mut u8,
}

impl Lent {
    /// The most words that can be lent.
    pub const MOST: usize = PAGE / 4;

    /// Memory with this edge.
    pub fn new(edge: Edge) -> Lent {
        // SAFETY: asks for fresh memory of three pages and opens the middle one; nothing else knows of it.
        unsafe {
            let start = mmap(std::ptr::null_mut(), 3 * PAGE, NO_ACCESS, PRIVATE_AND_ANONYMOUS, -1, 0) as *mut u8;
            assert!(start as isize != -1, "no memory to lend");
            assert!(mprotect(start.add(PAGE) as *mut c_void, PAGE, READ_AND_WRITE) == 0, "no memory to lend");
            Lent { edge, start }
        }
    }

    /// The words of this length against the edge, with what they last held.
    pub fn words(&mut self, length: usize) -> &mut [u32] {
        assert!(length <= Lent::MOST);
        let offset = match self.edge {
            Edge::Start => 0,
            Edge::End => PAGE - 4 * length,
            Edge::Plain => (PAGE - 4 * length) / 8 * 4,
        };
        // SAFETY: the middle page is open, whole words lie within it, and the borrow of self keeps them alone.
        unsafe { std::slice::from_raw_parts_mut(self.start.add(PAGE + offset) as *mut u32, length) }
    }

    /// The words of this list, against the edge.
    pub fn copy_of(&mut self, list: &[u32]) -> &mut [u32] {
        let words = self.words(list.len());
        words.copy_from_slice(list);
        words
    }
}

impl Drop for Lent {
    fn drop(&mut self) {
        // SAFETY: gives back what `new` was given, once.
        unsafe {
            munmap(self.start as *mut c_void, 3 * PAGE);
        }
    }
}
