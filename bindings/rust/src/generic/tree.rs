//! A tree that owns its pieces.

use super::{bytes, points, Answer, Axes, Library, Pieces, Point, Shared, Volume, MOST_POINTS};
use crate::{Refusal, Reply};

/// How a bulk insert came out: what was stored stays, also where it stopped early.
#[derive(Clone, Copy, Debug, PartialEq, Eq)]
pub struct Bulk {
    pub stored: usize,
    pub stopped: Option<Refusal>,
}

/// The points of an answer, or why there is none.
pub type Found<const N: usize> = Result<Vec<<Library as Axes<N>>::Point>, Refusal>;

/// A tree that owns its pieces.
#[derive(Clone)]
pub struct Tree<const N: usize>
where
    Library: Axes<N>,
{
    pieces: Box<Pieces<N>>,
}

impl<const N: usize> Tree<N>
where
    Library: Axes<N>,
{
    /// An empty tree. A node with more than `capacity` points is divided, down to depth 32.
    pub fn new(boundary: impl Into<Volume<N>>, capacity: u32) -> Result<Self, Refusal> {
        let mut pieces = Box::new(Pieces::zeroed());
        pieces.lent().create(boundary, capacity).figure()?;
        Ok(Tree { pieces })
    }

    /// The tree that these pieces hold, if they hold a sound one.
    pub fn from_pieces(pieces: Box<Pieces<N>>) -> Result<Self, Refusal> {
        pieces.shared().count().figure()?;
        Ok(Tree { pieces })
    }

    pub fn pieces(&self) -> &Pieces<N> {
        &self.pieces
    }

    pub fn into_pieces(self) -> Box<Pieces<N>> {
        self.pieces
    }

    /// Stores a point; equal ones may be stored many times.
    pub fn insert(&mut self, point: impl Into<Point<N>>) -> Result<(), Refusal> {
        self.pieces.lent().insert(point).figure().map(drop)
    }

    /// Stores points in order, skips those outside, and stops at the first for which there is no room.
    pub fn insert_bulk(&mut self, points: &[<Library as Axes<N>>::Point]) -> Bulk {
        let (coords, payloads) = bytes(points);
        let reply = self.pieces.lent().insert_bulk(&coords, &payloads);
        Bulk { stored: reply.figure as usize, stopped: reply.refusal() }
    }

    /// Takes out the first equal point of its node's list.
    pub fn delete(&mut self, point: impl Into<Point<N>>) -> Result<(), Refusal> {
        self.pieces.lent().delete(point).figure().map(drop)
    }

    /// Whether an equal point is held: the same payload, and coordinates equal as floats.
    pub fn contains(&self, point: impl Into<Point<N>>) -> Result<bool, Refusal> {
        self.pieces.shared().contains(point).figure().map(|yes| yes == 1)
    }

    pub fn len(&self) -> Result<usize, Refusal> {
        self.pieces.shared().count().figure().map(|count| count as usize)
    }

    pub fn is_empty(&self) -> Result<bool, Refusal> {
        self.pieces.shared().is_empty().figure().map(|yes| yes == 1)
    }

    /// Takes out every point; boundary and capacity stay.
    pub fn clear(&mut self) -> Result<(), Refusal> {
        self.pieces.lent().clear().figure().map(drop)
    }

    /// The points whose squared distance is at most the radius squared, in the order of the tree.
    pub fn range_search_at(&self, at: [f64; N], radius: f64) -> Found<N> {
        self.search(|tree, answer| tree.range_search_at(at, radius, answer))
    }

    /// The points in a box, in the order of the tree.
    pub fn range_search_bbox(&self, query: impl Into<Volume<N>>) -> Found<N> {
        self.search(|tree, answer| tree.range_search_bbox(query, answer))
    }

    /// The k nearest points, the nearest first.
    pub fn knn_search_at(&self, at: [f64; N], k: u32) -> Found<N> {
        self.search(|tree, answer| tree.knn_search_at(at, k, answer))
    }

    fn search(&self, call: impl FnOnce(Shared<N>, Answer) -> Reply) -> Found<N> {
        let (mut coords, mut payloads) = ([[[0; 8]; N]; MOST_POINTS], [0; 4 * MOST_POINTS]);
        let coords = coords.as_flattened_mut().as_flattened_mut();
        let answer = Answer { coords, payloads: &mut payloads };
        let count = call(self.pieces.shared(), answer).figure()?;
        Ok(points(coords, &payloads, count as usize))
    }
}
