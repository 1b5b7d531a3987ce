//! The Rust's tree with document 01's Room on top of it. The unchanged tree gives every answer; the opened
//! one, fed the same calls, shows its nodes.

use crate::kind::{Kind, SpaceOf};
use oracle::calls::{DONE, NO_CAPACITY, OUTSIDE};
use oracle::room::{stored, Limited};
use oracle::space::Space;
use ralikudo::generic::{Library, Point, Volume};
use spart::index::SpatialIndex;
use spart::opened::Opened;

type Item<const N: usize> = <SpaceOf<N> as Space>::Item;

pub struct Rust<const N: usize>
where
    Library: Kind<N>,
{
    tree: <SpaceOf<N> as Space>::Tree,
    limited: Limited<SpaceOf<N>>,
}

/// A point of the Rust's as ours.
pub fn point<const N: usize>(item: &Item<N>) -> Point<N>
where
    Library: Kind<N>,
{
    let oracle::calls::Point { at, payload } = SpaceOf::<N>::point(item);
    Point { at: at.try_into().expect("as many as there are axes"), payload }
}

impl<const N: usize> Rust<N>
where
    Library: Kind<N>,
{
    fn item(p: &Point<N>) -> Item<N> {
        SpaceOf::<N>::item(&p.at, p.payload)
    }

    fn centre(at: [f64; N]) -> Item<N> {
        SpaceOf::<N>::item(&at, 0)
    }

    fn volume(v: &Volume<N>) -> <SpaceOf<N> as Space>::Volume {
        SpaceOf::<N>::volume(&[v.corner, v.extent].concat())
    }

    fn answer(found: Vec<&Item<N>>) -> Vec<Point<N>> {
        found.into_iter().map(point).collect()
    }

    /// A tree, or the number with which it is refused.
    pub fn create(boundary: &Volume<N>, capacity: u32) -> Result<Self, u8> {
        let limited = Limited::create(&[boundary.corner, boundary.extent].concat(), capacity)?;
        let tree = SpaceOf::<N>::tree(limited.boundary(), capacity as usize).map_err(|_| NO_CAPACITY)?;
        Ok(Rust { tree, limited })
    }

    pub fn shape(&self) -> &<SpaceOf<N> as Space>::Shape {
        self.limited.shape()
    }

    pub fn unchanged(&self) -> &<SpaceOf<N> as Space>::Tree {
        &self.tree
    }

    pub fn nodes(&self) -> usize {
        self.limited.nodes()
    }

    pub fn insert(&mut self, p: &Point<N>) -> u8 {
        let item = Self::item(p);
        let reply = self.limited.insert(item.clone());
        if reply == DONE {
            stored(self.tree.insert(item));
        }
        reply
    }

    /// How many are stored, and what stopped it.
    pub fn insert_bulk(&mut self, points: &[Point<N>]) -> (u8, u32) {
        let mut stored = 0;
        for p in points {
            match self.insert(p) {
                DONE => stored += 1,
                OUTSIDE => {}
                stopped => return (stopped, stored),
            }
        }
        (DONE, stored)
    }

    pub fn delete(&mut self, p: &Point<N>) -> u8 {
        let item = Self::item(p);
        let reply = self.limited.delete(&item);
        assert_eq!(self.tree.delete(&item), reply == DONE, "both trees hold the same points");
        reply
    }

    pub fn clear(&mut self) {
        self.tree.clear();
        self.limited.clear();
    }

    pub fn contains(&self, p: &Point<N>) -> bool {
        self.tree.contains(&Self::item(p))
    }

    pub fn len(&self) -> usize {
        self.tree.len()
    }

    pub fn is_empty(&self) -> bool {
        SpaceOf::<N>::tree_is_empty(&self.tree)
    }

    pub fn range_search(&self, at: [f64; N], radius: f64) -> Vec<Point<N>> {
        Self::answer(self.tree.range_search::<<SpaceOf<N> as Space>::Metric>(&Self::centre(at), radius))
    }

    pub fn range_search_bbox(&self, query: &Volume<N>) -> Vec<Point<N>> {
        Self::answer(self.tree.range_search_bbox(&Self::volume(query)))
    }

    pub fn knn_search(&self, at: [f64; N], k: u32) -> Vec<Point<N>> {
        Self::answer(self.tree.knn_search::<<SpaceOf<N> as Space>::Metric>(&Self::centre(at), k as usize))
    }

    /// All points held, in the order of the tree.
    pub fn held(&self) -> Vec<Point<N>> {
        let mut held = Vec::new();
        self.shape().look(&mut |node| held.extend(node.points.iter().map(point)));
        held
    }
}
