//! A tree of ours in memory of the benchmark's own.

use super::calls::{Calls, Inner, Sound};
use super::{area, Query};
use ralikudo::generic::{Answer, Axes, Library, Pieces, Point, Shared, Volume, MOST_POINTS};
use std::marker::PhantomData;

pub struct Ours<C, const N: usize>
where
    Library: Axes<N>,
{
    calls: PhantomData<C>,
    pub pieces: Box<Pieces<N>>,
    coords: Vec<u8>,
    payloads: Vec<u8>,
}

impl<C: Calls<N>, const N: usize> Ours<C, N>
where
    Library: Axes<N>,
{
    pub fn new(capacity: u32) -> Self {
        let mut ours = Ours {
            calls: PhantomData,
            pieces: Box::new(Pieces::zeroed()),
            coords: vec![0; 8 * N * MOST_POINTS],
            payloads: vec![0; 4 * MOST_POINTS],
        };
        ours.empty(capacity);
        ours
    }

    pub fn empty(&mut self, capacity: u32) {
        self.pieces.lent().create(area(), capacity).figure().expect("the boundary is acceptable");
    }

    pub fn insert(&mut self, point: &Point<N>) -> u64 {
        u64::from(C::insert(&mut self.pieces.lent(), *point))
    }

    pub fn delete(&mut self, point: &Point<N>) -> u64 {
        u64::from(C::delete(&mut self.pieces.lent(), *point))
    }

    pub fn contains(&self, point: &Point<N>) -> bool {
        let mut yes = 0;
        C::contains(self.pieces.shared(), *point, &mut yes);
        yes == 1
    }

    /// The payloads of a search's answer.
    pub fn search(&mut self, query: Query, at: [f64; N]) -> impl Iterator<Item = u32> + '_ {
        let Ours { pieces, coords, payloads, .. } = self;
        let (tree, answer) = (pieces.shared(), Answer { coords, payloads });
        let mut count = 0;
        match query {
            Query::Radius(radius) => C::radius(tree, at, radius, answer, &mut count),
            Query::InBox(extent) => {
                let query = Volume { corner: at, extent: [extent; N] };
                C::in_box(tree, query, answer, &mut count)
            }
            Query::Nearest(k) => C::nearest(tree, at, k, answer, &mut count),
        };
        let payload = |four: &[u8]| u32::from_le_bytes([four[0], four[1], four[2], four[3]]);
        self.payloads.chunks_exact(4).take(count as usize).map(payload)
    }

    pub fn sound(&self) -> bool
    where
        Inner: Sound<N>,
    {
        Inner::sound(self.pieces.shared())
    }

    /// The sum of all words of the pieces, by plain Rust.
    pub fn sum(&self) -> u64 {
        let Shared { head, nodes, links, points } = self.pieces.shared();
        let words = |piece: &[u8]| -> u64 {
            let word = |four: &[u8]| u64::from(u32::from_le_bytes([four[0], four[1], four[2], four[3]]));
            piece.chunks_exact(4).map(word).sum()
        };
        words(head) + words(nodes) + words(links) + words(points)
    }
}
