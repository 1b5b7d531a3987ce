//! The quadtree and the octree for a Rust host: safe functions over the proved library that quadtree.h and octree.h
//! describe.
//!
//! `Quadtree` and `Octree` own their memory. A host that keeps a tree's pieces in memory of its own calls `calls`
//! instead, or `octree::calls`.
//!
//! ```
//! use ralikudo::{Point2D, Quadtree, Rectangle, Refusal};
//!
//! let boundary = Rectangle { x: 0.0, y: 0.0, width: 8.0, height: 8.0 };
//! let mut tree = Quadtree::new(boundary, 4)?;
//! let fault = Point2D { x: 1.0, y: 1.0, payload: 7 };
//! tree.insert(fault)?;
//! assert_eq!(tree.range_search(1.0, 2.0, 1.5)?, [fault]);
//! assert_eq!(tree.insert(Point2D { x: 9.0, ..fault }), Err(Refusal::Outside));
//! # Ok::<(), Refusal>(())
//! ```

#[macro_use]
mod names;
pub mod generic;
pub mod raw;
mod reply;

/// The quadtree; all of it is named at the root of the crate too.
pub mod quadtree {
    names!(2, Quadtree, Point2D { x, y }, Rectangle { width, height });
}

/// The octree, by the same names as the quadtree.
///
/// ```
/// use ralikudo::{Cube, Octree, Point3D, Refusal};
///
/// let boundary = Cube { x: 0.0, y: 0.0, z: 0.0, width: 8.0, height: 8.0, depth: 8.0 };
/// let mut tree = Octree::new(boundary, 4)?;
/// let fault = Point3D { x: 1.0, y: 1.0, z: 3.0, payload: 7 };
/// tree.insert(fault)?;
/// assert_eq!(tree.range_search(1.0, 2.0, 3.0, 1.5)?, [fault]);
/// assert_eq!(tree.insert(Point3D { z: 9.0, ..fault }), Err(Refusal::Outside));
/// # Ok::<(), Refusal>(())
/// ```
pub mod octree {
    names!(3, Octree, Point3D { x, y, z }, Cube { width, height, depth });
}

pub use generic::{Bulk, MOST_POINTS};
pub use octree::{Cube, Octree, Point3D};
pub use quadtree::{bytes, calls, points, Pieces, Point2D, Quadtree, Rectangle};
pub use reply::{Refusal, Reply};
