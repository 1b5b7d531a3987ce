//! Sound trees to be damaged, with what stands where.

use lent::layout::*;
use lent::memory::Memory;
use lent::renumber::renumber;
use lent::sound::sound;
use oracle::generate::on_grid;
use oracle::random::Random;
use ralikudo::generic::{bytes, Axes, Library, Point, Volume};

pub struct Base<const N: usize> {
    pub memory: Memory<N>,
    /// Nodes of the tree by what they are; each list may be empty but the first.
    pub nodes: Vec<usize>,
    pub divided: Vec<usize>,
    pub leaves: Vec<usize>,
    /// Undivided nodes that hold points.
    pub lists: Vec<usize>,
    /// The node above each node of the tree, 0 for the root.
    pub above: Vec<usize>,
    pub depth: Vec<usize>,
    pub groups: Vec<usize>,
    pub free_groups: Vec<usize>,
    pub places: Vec<usize>,
    pub free_places: Vec<usize>,
}

/// Two kinds of sides by turns.
fn boundary<const N: usize>(random: &mut Random) -> Volume<N> {
    let two = match random.below(6) {
        0 => [(-8.0, 16.0), (0.1, 0.7)],
        1 => [(3.0, 0.0), (-2f64.powi(500), 2f64.powi(500))],
        _ => [(0.0, 8.0); 2],
    };
    volume(std::array::from_fn(|axis| two[axis % 2]))
}

/// Points anywhere, on the grid of the tree, or in few places.
fn points<const N: usize>(random: &mut Random, r: &Volume<N>) -> Vec<Point<N>> {
    let many = *random.pick(&[0, 1, 2, 3, 5, 9, 20, 60, 200, 512]);
    let kind = random.below(4);
    let few: Vec<[f64; N]> = (0..3).map(|_| [0; N].map(|_| random.unit())).collect();
    let draw = |random: &mut Random, payload: usize| {
        let parts = match kind {
            0 => *random.pick(&few),
            _ => [0; N].map(|_| random.unit()),
        };
        let at = match kind {
            1 => sides(r).map(|side| on_grid(random, side, 3)),
            _ => std::array::from_fn(|axis| r.corner[axis] + parts[axis] * r.extent[axis]),
        };
        Point { at, payload: payload as u32 }
    };
    (0..many).map(|payload| draw(random, payload)).collect()
}

impl<const N: usize> Base<N> {
    /// A tree made by our own calls, then renumbered; it is sound, or that is told.
    pub fn new(seed: u64) -> Result<Self, String>
    where
        Library: Axes<N>,
    {
        let mut random = Random::new(seed);
        let mut memory = Memory::<N>::default();
        let r = boundary(&mut random);
        let capacity = *random.pick(&[1, 1, 2, 3, 4, 7, 8, 8, 16, 600]);
        let made = memory.lent().create(r, capacity);
        let list = points(&mut random, &r);
        let (coords, payloads) = bytes(&list);
        let stored = memory.lent().insert_bulk(&coords, &payloads);
        for point in list.iter().filter(|_| random.once_in(9)) {
            memory.lent().delete(*point);
        }
        if !random.once_in(4) && sound::<N>(memory.pieces()) {
            renumber(&mut memory, &mut random);
        }
        match sound::<N>(memory.pieces()) {
            true => Ok(Base::of(memory)),
            false => Err(format!("base {seed} is not sound: create {made:?}, bulk {stored:?}")),
        }
    }

    fn of(memory: Memory<N>) -> Self {
        let [_, nodes, links, _] = memory.pieces();
        let all = tree_nodes(N, nodes);
        let group = |node: &usize| field(nodes, *node, GROUP);
        let (mut above, mut depth) = (vec![0; node_places(N)], vec![0; node_places(N)]);
        for (parent, level) in &all {
            depth[*parent] = *level;
            if group(parent) != 0 {
                (0..ways(N)).for_each(|child| above[node(N, group(parent), child)] = *parent);
            }
        }
        let list: Vec<usize> = all.iter().map(|(node, _)| *node).collect();
        let (divided, leaves): (Vec<usize>, Vec<usize>) = list.iter().partition(|node| group(node) != 0);
        let lists: Vec<usize> =
            leaves.iter().copied().filter(|leaf| field(nodes, *leaf, FIRST) != 0).collect();
        Base {
            groups: divided.iter().map(group).collect(),
            places: lists.iter().flat_map(|leaf| chain(links, field(nodes, *leaf, FIRST))).collect(),
            free_groups: free_groups(N, nodes),
            free_places: free_places(links),
            nodes: list,
            divided,
            leaves,
            lists,
            above,
            depth,
            memory,
        }
    }

    /// Some place to ask about: a used one where there is one.
    pub fn any_place(&self, random: &mut Random) -> usize {
        if self.places.is_empty() {
            1
        } else {
            *random.pick(&self.places)
        }
    }

    /// A node and all above it, the root last.
    pub fn way(&self, node: usize) -> Vec<usize> {
        let up = |node: &usize| Some(self.above[*node]).filter(|above| *above != 0);
        std::iter::successors(Some(node), up).collect()
    }
}
