//! What the tests share: each is written over the number of axes and run for both trees. There are short names for
//! points and boxes, and a look at the nodes in a tree's pieces.
#![allow(dead_code)]

use ralikudo::generic::{Axes, Library, Pieces, Point, Tree, Volume};
use ralikudo::Refusal;

/// Runs tests for both trees.
#[macro_export]
macro_rules! both {
    ($($name:ident),* $(,)?) => {
        mod quadtree {
            $(#[test] fn $name() { super::$name::<2>() })*
        }

        mod octree {
            $(#[test] fn $name() { super::$name::<3>() })*
        }
    };
}

/// A tree's own type of points.
pub type Own<const N: usize> = <Library as Axes<N>>::Point;

/// These coordinates; every axis after x has y.
pub fn spot<const N: usize>(x: f64, y: f64) -> [f64; N] {
    std::array::from_fn(|axis| if axis == 0 { x } else { y })
}

/// One value on every axis but another on this one.
pub fn but<const N: usize>(value: f64, axis: usize, other: f64) -> [f64; N] {
    std::array::from_fn(|i| if i == axis { other } else { value })
}

pub fn own<const N: usize>(at: [f64; N], payload: u32) -> Own<N>
where
    Library: Axes<N>,
{
    Point { at, payload }.into()
}

pub fn at<const N: usize>(x: f64, y: f64, payload: u32) -> Own<N>
where
    Library: Axes<N>,
{
    own(spot(x, y), payload)
}

/// Whether a point's x is below 0 or is −0.
pub fn negative<const N: usize>(point: impl Into<Point<N>>) -> bool {
    point.into().at[0].is_sign_negative()
}

pub fn volume<const N: usize>(corner: [f64; N], extent: [f64; N]) -> Volume<N> {
    Volume { corner, extent }
}

/// A box with the same corner and extent on all axes.
pub fn even<const N: usize>(corner: f64, extent: f64) -> Volume<N> {
    volume([corner; N], [extent; N])
}

/// The site plan's boundary: from 0 to 8 on each axis.
pub fn plan<const N: usize>(capacity: u32) -> Tree<N>
where
    Library: Axes<N>,
{
    Tree::new(even(0.0, 8.0), capacity).expect("this boundary is acceptable")
}

pub fn holding<const N: usize>(capacity: u32, points: &[Own<N>]) -> Tree<N>
where
    Library: Axes<N>,
{
    let mut tree = plan(capacity);
    for point in points {
        assert_eq!(tree.insert(*point), Ok(()));
    }
    tree
}

/// The payloads of an answer, in order.
pub fn payloads<const N: usize>(answer: Result<Vec<impl Into<Point<N>>>, Refusal>) -> Vec<u32> {
    answer.expect("a search is not refused").into_iter().map(|point| point.into().payload).collect()
}

fn word(bytes: &[u8], number: usize) -> usize {
    u32::from_le_bytes(bytes[4 * number..4 * number + 4].try_into().unwrap()) as usize
}

/// An undivided node with points: the numbers of the children on the way there, and its payloads in order.
pub type Leaf = (Vec<usize>, Vec<u32>);

/// How many nodes there are, and the undivided ones that hold points.
pub fn shape<const N: usize>(pieces: &Pieces<N>) -> (usize, Vec<Leaf>)
where
    Library: Axes<N>,
{
    let mut leaves = Vec::new();
    let nodes = look(pieces, 1, &mut Vec::new(), &mut leaves);
    (nodes, leaves)
}

fn look<const N: usize>(
    pieces: &Pieces<N>,
    node: usize,
    way: &mut Vec<usize>,
    leaves: &mut Vec<Leaf>,
) -> usize
where
    Library: Axes<N>,
{
    let tree = pieces.shared();
    let group = word(tree.nodes, 4 * node);
    if group == 0 {
        let mut list = Vec::new();
        let mut place = word(tree.nodes, 4 * node + 1);
        while place != 0 {
            list.push(word(tree.points, 2 * (N + 1) * place + 2 * N) as u32);
            place = word(tree.links, place);
        }
        if !list.is_empty() {
            leaves.push((way.clone(), list));
        }
        return 1;
    }
    let mut nodes = 1;
    for child in 0..1 << N {
        way.push(child);
        nodes += look(pieces, (group << N) + child, way, leaves);
        way.pop();
    }
    nodes
}

pub fn nodes<const N: usize>(tree: &Tree<N>) -> usize
where
    Library: Axes<N>,
{
    shape(tree.pieces()).0
}

/// Nodes of a tree in which so many were divided.
pub fn divided<const N: usize>(many: usize) -> usize {
    1 + (many << N)
}
