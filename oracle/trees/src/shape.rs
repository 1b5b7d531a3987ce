//! Our whole tree against the Rust's: boxes, depths, counts and lists, node by node.

use crate::kind::{Kind, SpaceOf};
use crate::rust::point;
use lent::layout::*;
use lent::memory::Memory;
use lent::sound::part;
use oracle::bits::hex;
use oracle::rules::boxes;
use oracle::space::Space;
use ralikudo::generic::{Library, Point};
use spart::opened::{Node, Opened};

pub fn same_bits<const N: usize>(a: &Point<N>, b: &Point<N>) -> bool {
    let bits = |p: &Point<N>| (p.at.map(f64::to_bits), p.payload);
    bits(a) == bits(b)
}

type Theirs<'a, const N: usize> = Node<'a, <SpaceOf<N> as Space>::Volume, <SpaceOf<N> as Space>::Item>;

/// Our node and the Rust's have the same box, depth, count and list, and both are divided or neither is.
fn same_node<const N: usize>(
    memory: &Memory<N>,
    node: usize,
    ours: &Sides<N>,
    depth: usize,
    rust: &Theirs<N>,
) -> Result<(), String>
where
    Library: Kind<N>,
{
    let nodes = memory.pieces()[1];
    let (have, want) = (boxes::joined(*ours), SpaceOf::<N>::sides(rust.boundary));
    if !have.iter().zip(&want).all(|(a, b)| a.to_bits() == b.to_bits()) {
        let [have, want] = [have, want].map(|sides| sides.into_iter().map(hex).collect::<Vec<_>>().join(" "));
        return Err(format!("node {node} has the box {have} and not {want}"));
    }
    let have = (depth, field(nodes, node, GROUP) != 0, field(nodes, node, COUNT));
    let want = (rust.depth, rust.divided, rust.count);
    if have != want {
        return Err(format!("node {node} has depth, divided and count {have:?} and not {want:?}"));
    }
    same_list(memory, node, rust)
}

/// A divided node has no list.
fn same_list<const N: usize>(memory: &Memory<N>, node: usize, rust: &Theirs<N>) -> Result<(), String>
where
    Library: Kind<N>,
{
    let [_, nodes, links, points] = memory.pieces();
    let mut place = if rust.divided { 0 } else { field(nodes, node, FIRST) };
    for (i, wanted) in rust.points.iter().map(point).enumerate() {
        if place == 0 || place > PLACES {
            return Err(format!("node {node} has {i} points and not {}", rust.points.len()));
        }
        let have = Point { at: at(points, place), payload: payload::<N>(points, place) };
        if !same_bits(&have, &wanted) {
            return Err(format!("point {i} of node {node} is {have:?} and not {wanted:?}"));
        }
        place = word(links, place) as usize;
    }
    match place {
        0 => Ok(()),
        _ => Err(format!("node {node} has more points than {}", rust.points.len())),
    }
}

/// Our tree is the Rust's.
pub fn same_shape<const N: usize>(
    memory: &Memory<N>,
    rust: &<SpaceOf<N> as Space>::Shape,
) -> Result<(), String>
where
    Library: Kind<N>,
{
    let [head, nodes, ..] = memory.pieces();
    let mut left = vec![(ROOT, boundary(head), 0)];
    let mut found = Ok(());
    rust.look(&mut |theirs| {
        if found.is_err() {
            return;
        }
        let Some((number, sides, depth)) = left.pop() else {
            found = Err("the Rust has more nodes".to_string());
            return;
        };
        found = same_node(memory, number, &sides, depth, &theirs);
        let group = field(nodes, number, GROUP);
        if group != 0 && group <= groups(N) {
            let child = |child| (node(N, group, child), part(&sides, child), depth + 1);
            left.extend((0..ways(N)).rev().map(child));
        }
    });
    if found.is_ok() && !left.is_empty() {
        return Err("the Rust has fewer nodes".to_string());
    }
    found
}
