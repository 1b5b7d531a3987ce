//! The calls on pieces that stand in the host's own memory, at any length and with any bytes in them.

use super::{Axes, Library, Point, Volume};
use crate::Reply;

/// The four pieces, to be read.
#[derive(Clone, Copy)]
pub struct Shared<'a, const N: usize> {
    pub head: &'a [u8],
    pub nodes: &'a [u8],
    pub links: &'a [u8],
    pub points: &'a [u8],
}

/// The four pieces, to be changed.
pub struct Lent<'a, const N: usize> {
    pub head: &'a mut [u8],
    pub nodes: &'a mut [u8],
    pub links: &'a mut [u8],
    pub points: &'a mut [u8],
}

/// Where a search writes its answer: 8 bytes a coordinate and 4 bytes a payload. The shorter one counts.
pub struct Answer<'a> {
    pub coords: &'a mut [u8],
    pub payloads: &'a mut [u8],
}

/// What a figure is before a call: no call gives it.
const UNSET: u32 = u32::MAX;

/// The reply of a call that sets a figure.
fn told(call: impl FnOnce(&mut u32) -> u32) -> Reply {
    let mut figure = UNSET;
    let number = call(&mut figure);
    Reply { number, figure }
}

impl<const N: usize> Lent<'_, N>
where
    Library: Axes<N>,
{
    pub fn shared(&self) -> Shared<'_, N> {
        Shared { head: self.head, nodes: self.nodes, links: self.links, points: self.points }
    }

    /// Makes an empty tree, whatever the pieces hold.
    pub fn create(&mut self, boundary: impl Into<Volume<N>>, capacity: u32) -> Reply {
        Reply::plain(Library::create(self, boundary.into(), capacity))
    }

    pub fn insert(&mut self, point: impl Into<Point<N>>) -> Reply {
        Reply::plain(Library::insert(self, point.into()))
    }

    /// The figure is how many points were stored, also where the call stopped early.
    pub fn insert_bulk(&mut self, coords: &[u8], payloads: &[u8]) -> Reply {
        let mut stored = usize::MAX;
        let number = Library::insert_bulk(self, coords, payloads, &mut stored);
        Reply { number, figure: u32::try_from(stored).unwrap_or(UNSET) }
    }

    pub fn delete(&mut self, point: impl Into<Point<N>>) -> Reply {
        Reply::plain(Library::delete(self, point.into()))
    }

    pub fn clear(&mut self) -> Reply {
        Reply::plain(Library::clear(self))
    }
}

impl<const N: usize> Shared<'_, N>
where
    Library: Axes<N>,
{
    /// The figure is 1 for yes and 0 for no.
    pub fn contains(self, point: impl Into<Point<N>>) -> Reply {
        told(|yes| Library::contains(self, point.into(), yes))
    }

    /// The figure is how many points are held.
    pub fn count(self) -> Reply {
        told(|count| Library::len(self, count))
    }

    /// The figure is 1 for yes and 0 for no.
    pub fn is_empty(self) -> Reply {
        told(|yes| Library::is_empty(self, yes))
    }

    /// The figure is how many points were found.
    pub fn range_search_at(self, at: [f64; N], radius: f64, answer: Answer) -> Reply {
        told(|count| Library::range_search(self, at, radius, answer, count))
    }

    /// The figure is how many points were found.
    pub fn range_search_bbox(self, query: impl Into<Volume<N>>, answer: Answer) -> Reply {
        told(|count| Library::range_search_bbox(self, query.into(), answer, count))
    }

    /// The figure is how many points were found.
    pub fn knn_search_at(self, at: [f64; N], k: u32, answer: Answer) -> Reply {
        told(|count| Library::knn_search(self, at, k, answer, count))
    }
}
