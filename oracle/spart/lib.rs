//! The Rust given, each module unchanged, and beside it modules opened for looking inside.
//! `oracle/run` copies the files to where the paths below point.
#![allow(warnings)]

#[macro_use]
pub mod opened;
pub mod private;

#[path = "../target/spart/given/errors.rs"]
pub mod errors;
#[path = "../target/spart/given/geometry.rs"]
pub mod geometry;
#[path = "../target/spart/given/index.rs"]
pub mod index;
#[path = "../target/spart/given/knn.rs"]
pub mod knn;
#[path = "../target/spart/given/octree.rs"]
pub mod octree;
#[path = "../target/spart/given/quadtree.rs"]
pub mod quadtree;
#[path = "../target/spart/given/rtree_common.rs"]
pub mod rtree_common;

#[path = "../target/spart/opened/geometry.rs"]
pub mod geometry_opened;
#[path = "../target/spart/opened/octree.rs"]
pub mod octree_opened;
#[path = "../target/spart/opened/quadtree.rs"]
pub mod quadtree_opened;
