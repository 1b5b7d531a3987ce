//! The Rust's tree with document 01's Room on top of it.

use crate::calls::*;
use crate::space::Space;
use spart::index::SpatialIndex;
use spart::opened::Opened;

/// Points that a tree may hold.
pub const MOST_POINTS: usize = 512;

/// Nodes that a tree may have, by its number of axes.
pub const fn most_nodes(axes: usize) -> usize {
    if axes == 2 {
        341
    } else {
        321
    }
}

/// A boundary that Room allows: all numbers finite and at most 2^500 in magnitude, no extent below 0.
pub fn acceptable(boundary: &[f64]) -> bool {
    let most = 2f64.powi(500);
    let extents = &boundary[boundary.len() / 2..];
    boundary.iter().all(|x| x.abs() <= most) && extents.iter().all(|x| *x >= 0.0)
}

/// An opened tree with the limits of Room and document 01's replies. The nodes are counted as they come and go.
pub struct Limited<S: Space> {
    boundary: S::Volume,
    shape: S::Shape,
    nodes: usize,
}

impl<S: Space> Limited<S> {
    /// "creation 3, 4": the capacity first, then the boundary.
    pub fn create(boundary: &[f64], capacity: u32) -> Result<Self, u8> {
        let volume = S::volume(boundary);
        let shape = S::shape(&volume, capacity as usize).map_err(|_| NO_CAPACITY)?;
        if !acceptable(boundary) {
            return Err(BAD_BOUNDARY);
        }
        Ok(Limited { boundary: volume, shape, nodes: 1 })
    }

    pub fn boundary(&self) -> &S::Volume {
        &self.boundary
    }

    pub fn shape(&self) -> &S::Shape {
        &self.shape
    }

    pub fn nodes(&self) -> usize {
        self.nodes
    }

    fn inside(&self, item: &S::Item) -> bool {
        S::volume_contains(&self.boundary, item)
    }

    /// "insert 1, 5, 6".
    pub fn insert(&mut self, item: S::Item) -> u8 {
        if !self.inside(&item) {
            return OUTSIDE;
        }
        if self.shape.len() >= MOST_POINTS {
            return POINTS_FULL;
        }
        let nodes = self.nodes + self.shape.added(&item);
        if nodes > most_nodes(S::AXES) {
            return NODES_FULL;
        }
        self.nodes = nodes;
        stored(self.shape.insert(item));
        DONE
    }

    /// "delete 1, 2". Each merge is on the point's path and takes all children of a node away.
    pub fn delete(&mut self, item: &S::Item) -> u8 {
        let before = self.shape.depth_at(item);
        if !self.shape.delete(item) {
            return if self.inside(item) { NOT_HELD } else { OUTSIDE };
        }
        self.nodes -= (before - self.shape.depth_at(item)) << S::AXES;
        DONE
    }

    pub fn clear(&mut self) {
        self.shape.clear();
        self.nodes = 1;
    }
}

/// The Rust stores every point that is inside.
pub fn stored<E>(insert: Result<bool, E>) {
    assert!(matches!(insert, Ok(true)), "a point that is inside is stored");
}

/// The unchanged tree gives every answer; the opened one, fed the same calls, says what is refused.
pub struct Room<S: Space> {
    capacity: usize,
    tree: S::Tree,
    limited: Limited<S>,
}

impl<S: Space> Room<S> {
    pub fn boundary(&self) -> &S::Volume {
        self.limited.boundary()
    }

    pub fn capacity(&self) -> usize {
        self.capacity
    }

    pub fn tree(&self) -> &S::Tree {
        &self.tree
    }

    pub fn limited(&self) -> &Limited<S> {
        &self.limited
    }

    pub fn shape(&self) -> &S::Shape {
        self.limited.shape()
    }

    fn answer(found: Vec<&S::Item>) -> Vec<Point> {
        found.into_iter().map(S::point).collect()
    }
}

impl<S: Space> Calls for Room<S> {
    fn create(boundary: &[f64], capacity: u32) -> Result<Self, u8> {
        let limited = Limited::create(boundary, capacity)?;
        let capacity = capacity as usize;
        let tree = S::tree(limited.boundary(), capacity).map_err(|_| NO_CAPACITY)?;
        Ok(Room { capacity, tree, limited })
    }

    fn insert(&mut self, point: &Point) -> u8 {
        let item = S::item(&point.at, point.payload);
        let reply = self.limited.insert(item.clone());
        if reply == DONE {
            stored(self.tree.insert(item));
        }
        reply
    }

    fn delete(&mut self, point: &Point) -> u8 {
        let item = S::item(&point.at, point.payload);
        let reply = self.limited.delete(&item);
        assert_eq!(self.tree.delete(&item), reply == DONE, "both trees hold the same points");
        reply
    }

    fn contains(&self, point: &Point) -> bool {
        self.tree.contains(&S::item(&point.at, point.payload))
    }

    fn count(&self) -> usize {
        self.tree.len()
    }

    fn clear(&mut self) {
        self.tree.clear();
        self.limited.clear();
    }

    fn range(&self, centre: &[f64], radius: f64) -> Vec<Point> {
        let centre = S::item(centre, 0);
        Self::answer(self.tree.range_search::<S::Metric>(&centre, radius))
    }

    fn nearest(&self, centre: &[f64], k: u32) -> Vec<Point> {
        let centre = S::item(centre, 0);
        Self::answer(self.tree.knn_search::<S::Metric>(&centre, k as usize))
    }

    fn in_box(&self, sides: &[f64]) -> Vec<Point> {
        Self::answer(self.tree.range_search_bbox(&S::volume(sides)))
    }
}
