//! The trees and their searches by document 01's words; no search skips a branch here.

use super::{boxes, table::Table};
use crate::calls::*;
use crate::room::{acceptable, most_nodes, MOST_POINTS};

const DEEPEST: usize = 32;

#[derive(Clone)]
struct Node {
    sides: Vec<f64>,
    depth: usize,
    list: Vec<Point>,
    children: Vec<Node>,
}

impl Node {
    fn new(sides: Vec<f64>, depth: usize) -> Self {
        Node { sides, depth, list: Vec::new(), children: Vec::new() }
    }

    fn ways(&self) -> usize {
        1 << (self.sides.len() / 2)
    }

    fn nodes(&self) -> usize {
        1 + self.children.iter().map(Node::nodes).sum::<usize>()
    }

    /// "Insert appends to an undivided node holding fewer than capacity or at depth 32; else the node
    /// splits, its points move down in list order, and the new point goes on into its child."
    fn insert(&mut self, point: Point, capacity: usize) {
        let undivided = self.children.is_empty();
        if undivided && (self.list.len() < capacity || self.depth == DEEPEST) {
            self.list.push(point);
            return;
        }
        if undivided {
            let part = |i| Node::new(boxes::part(&self.sides, i), self.depth + 1);
            self.children = (0..self.ways()).map(part).collect();
            for moved in std::mem::take(&mut self.list) {
                self.child(&moved.at).insert(moved, capacity);
            }
        }
        self.child(&point.at).insert(point, capacity);
    }

    fn child(&mut self, at: &[f64]) -> &mut Node {
        &mut self.children[boxes::route(&self.sides, at)]
    }

    /// "Delete removes the first equal point in its node's list", then merges on the way up.
    fn delete(&mut self, point: &Point, capacity: usize) -> bool {
        if self.children.is_empty() {
            let place = self.list.iter().position(|p| equal(p, point));
            return place.map(|i| self.list.remove(i)).is_some();
        }
        let deleted = self.child(&point.at).delete(point, capacity);
        if deleted {
            self.merge(capacity);
        }
        deleted
    }

    /// "Quadtree lists joined NE, NW, SE, SW; octree lists in child order."
    fn merge(&mut self, capacity: usize) {
        let together: usize = self.children.iter().map(|c| c.list.len()).sum();
        if self.children.iter().any(|c| !c.children.is_empty()) || together > capacity {
            return;
        }
        let order: &[usize] = if self.ways() == 4 { &[1, 0, 3, 2] } else { &[0, 1, 2, 3, 4, 5, 6, 7] };
        self.list = order.iter().flat_map(|i| std::mem::take(&mut self.children[*i].list)).collect();
        self.children.clear();
    }

    /// "The node's list, then children in index order."
    fn held(&self, show: &mut dyn FnMut(&Point)) {
        self.list.iter().for_each(&mut *show);
        self.children.iter().for_each(|c| c.held(show));
    }

    /// "The list, then children by node distance, ties in index order."
    fn visit(&self, centre: &[f64], show: &mut dyn FnMut(&Point)) {
        self.list.iter().for_each(&mut *show);
        let mut order: Vec<&Node> = self.children.iter().collect();
        let distance = |node: &Node| boxes::node_distance(&node.sides, centre);
        order.sort_by(|a, b| distance(a).partial_cmp(&distance(b)).expect("no node distance is NaN"));
        order.iter().for_each(|c| c.visit(centre, show));
    }
}

/// "All coordinates equal as floats and payloads equal."
fn equal(a: &Point, b: &Point) -> bool {
    boxes::same(&a.at, &b.at) && a.payload == b.payload
}

/// A tree with its capacity.
pub struct Tree {
    root: Node,
    capacity: usize,
}

impl Tree {
    fn held(&self, keep: impl Fn(&Point) -> bool) -> Vec<Point> {
        let mut found = Vec::new();
        self.root.held(&mut |p| {
            if keep(p) {
                found.push(p.clone())
            }
        });
        found
    }
}

impl Calls for Tree {
    fn create(boundary: &[f64], capacity: u32) -> Result<Self, u8> {
        match capacity {
            0 => Err(NO_CAPACITY),
            _ if !acceptable(boundary) => Err(BAD_BOUNDARY),
            _ => Ok(Tree { root: Node::new(boundary.to_vec(), 0), capacity: capacity as usize }),
        }
    }

    fn insert(&mut self, point: &Point) -> u8 {
        if !boxes::inside(&self.root.sides, &point.at) {
            return OUTSIDE;
        }
        if self.count() == MOST_POINTS {
            return POINTS_FULL;
        }
        let mut grown = self.root.clone();
        grown.insert(point.clone(), self.capacity);
        if grown.nodes() > most_nodes(point.at.len()) {
            return NODES_FULL;
        }
        self.root = grown;
        DONE
    }

    fn delete(&mut self, point: &Point) -> u8 {
        if !boxes::inside(&self.root.sides, &point.at) {
            return OUTSIDE;
        }
        if self.root.delete(point, self.capacity) {
            DONE
        } else {
            NOT_HELD
        }
    }

    fn contains(&self, point: &Point) -> bool {
        !self.held(|p| equal(p, point)).is_empty()
    }

    fn count(&self) -> usize {
        self.held(|_| true).len()
    }

    fn clear(&mut self) {
        self.root = Node::new(self.root.sides.clone(), 0);
    }

    fn range(&self, centre: &[f64], radius: f64) -> Vec<Point> {
        if radius < 0.0 {
            return Vec::new();
        }
        self.held(|p| boxes::squared(&p.at, centre) <= radius * radius)
    }

    fn nearest(&self, centre: &[f64], k: u32) -> Vec<Point> {
        let mut table = Table::new((k as usize).min(MOST_POINTS));
        self.root.visit(centre, &mut |p| table.offer(boxes::squared(&p.at, centre), p.clone()));
        table.items()
    }

    fn in_box(&self, sides: &[f64]) -> Vec<Point> {
        self.held(|p| boxes::inside(sides, &p.at))
    }
}
