//! One face for the Rust's two geometries and trees, so that everything above is written once.
//! A box is a list of numbers, its corners and then its extents; a place is its coordinates.

use crate::calls::Point;
use spart::errors::SpartError;
use spart::geometry::{
    BoundingVolume, Cube, DistanceMetric, EuclideanDistance, HasMinDistance, Point2D, Point3D, Rectangle,
};
use spart::index::SpatialIndex;
use spart::opened::Opened;
use std::fmt::Debug;

/// The types of the Rust for one number of axes.
pub trait Space: 'static {
    const AXES: usize;
    const NAME: &'static str;
    /// The word that begins a tree.
    const WORD: &'static str;
    type Volume: BoundingVolume + HasMinDistance<Self::Item>;
    type Item: Clone + PartialEq;
    type Metric: DistanceMetric<Self::Item>;
    /// The tree from the unchanged module.
    type Tree: SpatialIndex<Item = Self::Item, Volume = Self::Volume> + Clone + Debug;
    /// The same tree from the opened module.
    type Shape: SpatialIndex<Item = Self::Item, Volume = Self::Volume>
        + Opened<Volume = Self::Volume, Point = Self::Item>
        + Clone
        + Debug;

    fn tree(boundary: &Self::Volume, capacity: usize) -> Result<Self::Tree, SpartError>;
    fn shape(boundary: &Self::Volume, capacity: usize) -> Result<Self::Shape, SpartError>;
    fn volume(sides: &[f64]) -> Self::Volume;
    fn sides(volume: &Self::Volume) -> Vec<f64>;
    fn item(at: &[f64], payload: u32) -> Self::Item;
    fn point(item: &Self::Item) -> Point;
    fn payload(item: &Self::Item) -> u32;
    /// Hands over each coordinate in turn.
    fn coordinates(item: &Self::Item, each: impl FnMut(f64));
    /// The inherent `contains` of the box.
    fn volume_contains(volume: &Self::Volume, item: &Self::Item) -> bool;
    /// The inherent `is_empty` of the tree.
    fn tree_is_empty(tree: &Self::Tree) -> bool;
}

macro_rules! space {
    ($space:ident, $axes:literal, $word:literal, $module:ident, $opened:ident, $tree:ident,
     $volume:ident { $($side:ident $s:literal),* }, $point:ident { $($axis:ident $a:literal),* }) => {
        pub struct $space;

        impl Space for $space {
            const AXES: usize = $axes;
            const NAME: &'static str = stringify!($module);
            const WORD: &'static str = $word;
            type Volume = $volume;
            type Item = $point<u32>;
            type Metric = EuclideanDistance;
            type Tree = spart::$module::$tree<u32>;
            type Shape = spart::$opened::$tree<u32>;

            fn tree(boundary: &$volume, capacity: usize) -> Result<Self::Tree, SpartError> {
                spart::$module::$tree::new(boundary, capacity)
            }
            fn shape(boundary: &$volume, capacity: usize) -> Result<Self::Shape, SpartError> {
                spart::$opened::$tree::new(boundary, capacity)
            }
            fn volume(sides: &[f64]) -> $volume {
                $volume { $($side: sides[$s]),* }
            }
            fn sides(volume: &$volume) -> Vec<f64> {
                vec![$(volume.$side),*]
            }
            fn item(at: &[f64], payload: u32) -> Self::Item {
                $point { $($axis: at[$a],)* data: Some(payload) }
            }
            fn point(item: &Self::Item) -> Point {
                Point { at: vec![$(item.$axis),*], payload: Self::payload(item) }
            }
            fn payload(item: &Self::Item) -> u32 {
                item.data.unwrap_or(0)
            }
            fn coordinates(item: &Self::Item, mut each: impl FnMut(f64)) {
                $(each(item.$axis);)*
            }
            fn volume_contains(volume: &$volume, item: &Self::Item) -> bool {
                volume.contains(item)
            }
            fn tree_is_empty(tree: &Self::Tree) -> bool {
                tree.is_empty()
            }
        }
    };
}

space!(Plane, 2, "quad", quadtree, quadtree_opened, Quadtree,
       Rectangle { x 0, y 1, width 2, height 3 }, Point2D { x 0, y 1 });
space!(Solid, 3, "oct", octree, octree_opened, Octree,
       Cube { x 0, y 1, z 2, width 3, height 4, depth 5 }, Point3D { x 0, y 1, z 2 });
