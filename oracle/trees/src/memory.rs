//! The four pieces in memory of our own, with bytes around each that nobody may touch.

use crate::layout::lengths;
use ralikudo::generic::{self, Lent, Shared};

/// Bytes before, between and behind the pieces; an odd number, so that no piece is aligned.
const MARGIN: usize = 61;
const AROUND: u8 = 0xa5;

/// Where the pieces begin, and behind them the end of it all.
const fn starts(axes: usize) -> [usize; 5] {
    let lengths = lengths(axes);
    let mut starts = [MARGIN; 5];
    let mut piece = 0;
    while piece < 4 {
        starts[piece + 1] = starts[piece] + lengths[piece] + MARGIN;
        piece += 1;
    }
    starts
}

#[derive(Clone, PartialEq)]
pub struct Memory<const N: usize> {
    bytes: Vec<u8>,
}

impl<const N: usize> Default for Memory<N> {
    fn default() -> Self {
        let mut memory = Memory { bytes: vec![AROUND; Self::STARTS[4]] };
        memory.pieces_mut().into_iter().for_each(|piece| piece.fill(0));
        memory
    }
}

impl<const N: usize> Memory<N> {
    const LENGTHS: [usize; 4] = lengths(N);
    const STARTS: [usize; 5] = starts(N);

    /// Takes over every byte of another, without new memory.
    pub fn copy(&mut self, other: &Self) {
        self.bytes.copy_from_slice(&other.bytes);
    }

    /// Head, nodes, links and points.
    pub fn pieces(&self) -> [&[u8]; 4] {
        [0, 1, 2, 3].map(|i| &self.bytes[Self::STARTS[i]..Self::STARTS[i] + Self::LENGTHS[i]])
    }

    pub fn pieces_mut(&mut self) -> [&mut [u8]; 4] {
        self.lengths_mut(Self::LENGTHS)
    }

    /// The pieces at other lengths: longer ones, by a margin at most, reach into the bytes behind.
    pub fn lengths_mut(&mut self, lengths: [usize; 4]) -> [&mut [u8]; 4] {
        let starts = Self::STARTS;
        let (a, rest) = self.bytes.split_at_mut(starts[1]);
        let (b, rest) = rest.split_at_mut(starts[2] - starts[1]);
        let (c, d) = rest.split_at_mut(starts[3] - starts[2]);
        [
            &mut a[MARGIN..MARGIN + lengths[0]],
            &mut b[..lengths[1]],
            &mut c[..lengths[2]],
            &mut d[..lengths[3]],
        ]
    }

    pub fn shared(&self) -> Shared<'_, N> {
        let [head, nodes, links, points] = self.pieces();
        Shared { head, nodes, links, points }
    }

    pub fn lent(&mut self) -> Lent<'_, N> {
        self.lent_at(Self::LENGTHS)
    }

    pub fn lent_at(&mut self, lengths: [usize; 4]) -> Lent<'_, N> {
        let [head, nodes, links, points] = self.lengths_mut(lengths);
        Lent { head, nodes, links, points }
    }

    /// Whether the bytes around the pieces are as they were at first.
    pub fn margins_untouched(&self) -> bool {
        let before = Self::STARTS.map(|start| start - MARGIN);
        before.into_iter().flat_map(|from| &self.bytes[from..from + MARGIN]).all(|byte| *byte == AROUND)
    }
}

/// Bytes lent for an answer, with margins of their own.
pub struct Answer<const N: usize> {
    coords: Vec<u8>,
    payloads: Vec<u8>,
    lengths: (usize, usize),
}

impl<const N: usize> Answer<N> {
    /// Room for so many bytes; what stands in it differs from byte to byte.
    pub fn new(coords: usize, payloads: usize) -> Self {
        let fill = |length: usize| (0..length + 2 * MARGIN).map(filler).collect();
        Answer { coords: fill(coords), payloads: fill(payloads), lengths: (coords, payloads) }
    }

    /// Room for so many points.
    pub fn of(points: usize) -> Self {
        Answer::new(8 * N * points, 4 * points)
    }

    pub fn lent(&mut self) -> generic::Answer<'_> {
        generic::Answer {
            coords: &mut self.coords[MARGIN..MARGIN + self.lengths.0],
            payloads: &mut self.payloads[MARGIN..MARGIN + self.lengths.1],
        }
    }

    /// The first bytes that were lent: of so many coordinates and payloads.
    pub fn first(&self, many: usize) -> (&[u8], &[u8]) {
        (&self.coords[MARGIN..MARGIN + 8 * N * many], &self.payloads[MARGIN..MARGIN + 4 * many])
    }

    /// Whether all but the first so many points is as it was.
    pub fn untouched_behind(&self, many: usize) -> bool {
        let same = |bytes: &[u8], gone: usize| {
            let kept = |i: usize| bytes[i] == filler(i);
            (0..MARGIN).chain(MARGIN + gone..bytes.len()).all(kept)
        };
        same(&self.coords, 8 * N * many) && same(&self.payloads, 4 * many)
    }
}

fn filler(number: usize) -> u8 {
    (number as u8).wrapping_mul(37) ^ AROUND
}
