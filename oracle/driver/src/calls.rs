//! The calls of document 01 and its reply numbers, whoever answers them.

pub const DONE: u8 = 0;
pub const OUTSIDE: u8 = 1;
pub const NOT_HELD: u8 = 2;
pub const NO_CAPACITY: u8 = 3;
pub const BAD_BOUNDARY: u8 = 4;
pub const POINTS_FULL: u8 = 5;
pub const NODES_FULL: u8 = 6;
pub const NOT_UNDERSTOOD: u8 = 9;
pub const NO_TREE: u8 = 10;

/// A point as it is asked for and answered.
#[derive(Clone, Debug)]
pub struct Point {
    pub at: Vec<f64>,
    pub payload: u32,
}

/// A tree that answers the calls; a call that can be refused gives its reply number.
pub trait Calls: Sized {
    fn create(boundary: &[f64], capacity: u32) -> Result<Self, u8>;
    fn insert(&mut self, point: &Point) -> u8;
    fn delete(&mut self, point: &Point) -> u8;
    fn contains(&self, point: &Point) -> bool;
    fn count(&self) -> usize;
    fn clear(&mut self);
    fn range(&self, centre: &[f64], radius: f64) -> Vec<Point>;
    fn nearest(&self, centre: &[f64], k: u32) -> Vec<Point>;
    fn in_box(&self, sides: &[f64]) -> Vec<Point>;
}
