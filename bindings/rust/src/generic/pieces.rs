//! A tree's memory: four pieces of bytes.

use super::{Axes, Lent, Library, Shared};

/// Points that a tree holds at most.
pub const MOST_POINTS: usize = 512;

/// The bytes of a piece, as many as it must have.
pub trait Piece: Clone + Eq + AsRef<[u8]> + AsMut<[u8]> {
    const ZEROED: Self;
}

impl<const LENGTH: usize> Piece for [u8; LENGTH] {
    const ZEROED: Self = [0; LENGTH];
}

/// The pieces of a tree at their lengths. Any bytes may stand in them: only calls tell whether they are a tree.
#[derive(Clone, PartialEq, Eq)]
pub struct Pieces<const N: usize>
where
    Library: Axes<N>,
{
    pub head: <Library as Axes<N>>::Head,
    pub nodes: <Library as Axes<N>>::Nodes,
    pub links: [u8; 4 * (MOST_POINTS + 1)],
    pub points: <Library as Axes<N>>::Points,
}

impl<const N: usize> Pieces<N>
where
    Library: Axes<N>,
{
    /// Pieces that hold no tree yet.
    pub const fn zeroed() -> Self {
        Pieces { head: Piece::ZEROED, nodes: Piece::ZEROED, links: Piece::ZEROED, points: Piece::ZEROED }
    }

    pub fn shared(&self) -> Shared<'_, N> {
        Shared {
            head: self.head.as_ref(),
            nodes: self.nodes.as_ref(),
            links: &self.links,
            points: self.points.as_ref(),
        }
    }

    pub fn lent(&mut self) -> Lent<'_, N> {
        Lent {
            head: self.head.as_mut(),
            nodes: self.nodes.as_mut(),
            links: &mut self.links,
            points: self.points.as_mut(),
        }
    }
}
