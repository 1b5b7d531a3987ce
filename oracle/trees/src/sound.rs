//! Whether pieces hold a sound tree: document 01's sentence, clause by clause, over the layout.

use crate::layout::*;
use oracle::room::acceptable;
use oracle::rules::boxes;

/// "Boxes by the split rule": they are not stored, so that they cannot be wrong.
pub fn part<const N: usize>(sides: &Sides<N>, child: usize) -> Sides<N> {
    std::array::from_fn(|axis| boxes::half(sides[axis], child >> axis & 1 == 1))
}

fn inside<const N: usize>(sides: &Sides<N>, at: [f64; N]) -> bool {
    (0..N).all(|axis| sides[axis].0 <= at[axis] && at[axis] <= boxes::far(sides[axis]))
}

pub fn route<const N: usize>(sides: &Sides<N>, at: [f64; N]) -> usize {
    (0..N).map(|axis| usize::from(at[axis] >= boxes::midplane(sides[axis])) << axis).sum()
}

/// A walk over the pieces, with what it has met.
struct Walk<'a, const N: usize> {
    nodes: &'a [u8],
    links: &'a [u8],
    points: &'a [u8],
    boundary: Sides<N>,
    capacity: usize,
    groups: Vec<bool>,
    places: [bool; PLACES + 1],
    /// The divided nodes above: the box of each, and the number of the child that was taken.
    way: Vec<(Sides<N>, usize)>,
}

/// A number that may be met once: from 1 to the last, and not met before.
fn meet(met: &mut [bool], number: usize) -> Option<()> {
    let seen = met.get_mut(number).filter(|_| number != 0)?;
    (!std::mem::replace(seen, true)).then_some(())
}

impl<const N: usize> Walk<'_, N> {
    /// How many points are in a node and below it, or nothing where something is wrong.
    fn node(&mut self, number: usize, sides: &Sides<N>) -> Option<usize> {
        let depth = self.way.len();
        let group = field(self.nodes, number, GROUP);
        let count = if group == 0 { self.list(number)? } else { self.children(group, sides)? };
        // "counts that match at each node"
        if field(self.nodes, number, COUNT) != count {
            return None;
        }
        // "no undivided node above depth 32 over capacity, no divided node with capacity points or fewer"
        let fits =
            if group == 0 { depth == DEEPEST || count <= self.capacity } else { count > self.capacity };
        fits.then_some(count)
    }

    /// "links that form a tree with all children or none", "no node below depth 32"
    fn children(&mut self, group: usize, sides: &Sides<N>) -> Option<usize> {
        if self.way.len() == DEEPEST {
            return None;
        }
        meet(&mut self.groups, group)?;
        let mut count = 0;
        for child in 0..ways(N) {
            self.way.push((*sides, child));
            count += self.node(node(N, group, child), &part(sides, child))?;
            self.way.pop();
        }
        Some(count)
    }

    /// "points only in undivided nodes on their routed path and inside the boundary"
    fn list(&mut self, node: usize) -> Option<usize> {
        let (mut count, mut last) = (0, 0);
        let mut place = field(self.nodes, node, FIRST);
        while place != 0 {
            meet(&mut self.places, place)?;
            let at = at(self.points, place);
            let routed = self.way.iter().all(|(sides, child)| route(sides, at) == *child);
            if !routed || !inside(&self.boundary, at) {
                return None;
            }
            count += 1;
            last = place;
            place = word(self.links, place) as usize;
        }
        (field(self.nodes, node, LAST) == last).then_some(count)
    }

    /// "each unused place free once": groups, then places of points.
    fn free(&mut self) -> Option<()> {
        let mut group = field(self.nodes, 0, GROUP);
        while group != 0 {
            meet(&mut self.groups, group)?;
            group = field(self.nodes, node(N, group, 0), GROUP);
        }
        let mut place = word(self.links, 0) as usize;
        while place != 0 {
            meet(&mut self.places, place)?;
            place = word(self.links, place) as usize;
        }
        let all = self.groups[1..].iter().chain(&self.places[1..]).all(|met| *met);
        all.then_some(())
    }
}

/// "A tree is sound when .."; pieces of wrong length hold none.
pub fn sound<const N: usize>(pieces: [&[u8]; 4]) -> bool {
    if pieces.map(<[u8]>::len) != lengths(N) {
        return false;
    }
    let [head, nodes, links, points] = pieces;
    let root: Sides<N> = boundary(head);
    let capacity = word(head, capacity_word(N)) as usize;
    // "it has an acceptable boundary, capacity at least 1"
    if !acceptable(&boxes::joined(root)) || capacity == 0 {
        return false;
    }
    let mut walk = Walk {
        nodes,
        links,
        points,
        boundary: root,
        capacity,
        groups: vec![false; groups(N) + 1],
        places: [false; PLACES + 1],
        way: Vec::with_capacity(DEEPEST),
    };
    walk.node(ROOT, &root).is_some() && walk.free().is_some()
}
