//! Both trees in one text, over the number of axes. What the modules `quadtree` and `octree` name are these types
//! for two and for three axes; code that serves both trees is written with these.

mod calls;
mod pieces;
mod points;
mod tree;

pub use calls::{Answer, Lent, Shared};
pub use pieces::{Piece, Pieces, MOST_POINTS};
pub use points::{bytes, points, Point, Volume};
use std::fmt::Debug;
pub use tree::{Bulk, Tree};

/// The library that is linked.
pub struct Library;

/// That the library has a tree with N axes: the tree's types, and its C functions on whole slices. Each gives
/// its reply number and sets the figure that it is lent.
pub trait Axes<const N: usize> {
    /// A point as the host writes it.
    type Point: Copy + Debug + PartialEq + From<Point<N>> + Into<Point<N>>;
    type Head: Piece;
    type Nodes: Piece;
    type Points: Piece;

    fn create(tree: &mut Lent<N>, boundary: Volume<N>, capacity: u32) -> u32;
    fn insert(tree: &mut Lent<N>, point: Point<N>) -> u32;
    fn insert_bulk(tree: &mut Lent<N>, coords: &[u8], payloads: &[u8], stored: &mut usize) -> u32;
    fn delete(tree: &mut Lent<N>, point: Point<N>) -> u32;
    fn clear(tree: &mut Lent<N>) -> u32;
    fn contains(tree: Shared<N>, point: Point<N>, yes: &mut u32) -> u32;
    fn len(tree: Shared<N>, count: &mut u32) -> u32;
    fn is_empty(tree: Shared<N>, yes: &mut u32) -> u32;
    fn range_search(tree: Shared<N>, at: [f64; N], radius: f64, answer: Answer, count: &mut u32) -> u32;
    fn range_search_bbox(tree: Shared<N>, query: Volume<N>, answer: Answer, count: &mut u32) -> u32;
    fn knn_search(tree: Shared<N>, at: [f64; N], k: u32, answer: Answer, count: &mut u32) -> u32;
}
