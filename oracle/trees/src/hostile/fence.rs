//! Pieces that end where memory ends: a read behind one stops the program.

use lent::memory::Memory;
use ralikudo::generic::Lent;
use std::ffi::c_void;

extern "C" {
    fn mmap(at: *mut c_void, length: usize, may: i32, flags: i32, file: i32, from: i64) -> *mut c_void;
    fn mprotect(at: *mut c_void, length: usize, may: i32) -> i32;
}

const PAGE: usize = 4096;
const READ_AND_WRITE: i32 = 3;
const PRIVATE_AND_ANONYMOUS: i32 = 0x22;

/// Four runs of pages, each with one behind it that may not be touched.
pub struct Fence {
    ends: [*mut u8; 4],
}

/// Pages for the longest piece, and a little more.
const ROOM: usize = 5 * PAGE;

impl Fence {
    pub fn new() -> Self {
        let run = |_| unsafe {
            let at = mmap(std::ptr::null_mut(), ROOM + PAGE, READ_AND_WRITE, PRIVATE_AND_ANONYMOUS, -1, 0);
            assert!(!at.is_null() && at as isize != -1, "there is memory");
            let end = at.cast::<u8>().add(ROOM);
            assert_eq!(mprotect(end.cast(), PAGE, 0), 0, "a page can be closed");
            end
        };
        Fence { ends: [0, 1, 2, 3].map(run) }
    }

    /// A copy of the pieces at these lengths, each up to the end.
    pub fn lent<const N: usize>(&mut self, memory: &mut Memory<N>, lengths: [usize; 4]) -> Lent<'_, N> {
        let mut ends = self.ends.into_iter();
        let [head, nodes, links, points] = memory.lengths_mut(lengths).map(|piece| {
            let end = ends.next().expect("four pieces");
            // A piece is shorter than its run of pages, and no two runs overlap.
            let copy = unsafe { std::slice::from_raw_parts_mut(end.sub(piece.len()), piece.len()) };
            copy.copy_from_slice(piece);
            copy
        });
        Lent { head, nodes, links, points }
    }
}
