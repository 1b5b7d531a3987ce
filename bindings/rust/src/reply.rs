//! Reply numbers, and what they mean.

use std::error::Error;
use std::fmt::{Display, Formatter};

/// What a call gives: its reply number, and the count or the yes or no, which is 0 where the call was refused
/// or has none.
#[derive(Clone, Copy, Debug, PartialEq, Eq)]
pub struct Reply {
    pub number: u32,
    pub figure: u32,
}

/// Why a call was refused; the numbers are those of trees.h.
#[derive(Clone, Copy, Debug, PartialEq, Eq)]
pub enum Refusal {
    /// The point is outside the boundary; any NaN is outside.
    Outside = 1,
    /// No equal point is held.
    NotHeld = 2,
    /// The capacity is 0.
    NoCapacity = 3,
    /// A number is not finite or above 2^500 in magnitude, or an extent is negative.
    BadBoundary = 4,
    /// 512 points are held already.
    PointsFull = 5,
    /// Storing the point would take more nodes than 341 in a quadtree, 321 in an octree.
    NodesFull = 6,
    /// There are more answers than the lent slices hold.
    NoRoom = 7,
    /// The pieces hold no sound tree, or one of them has a wrong length.
    Unsound = 8,
}

impl Reply {
    /// The reply of a call that has no figure.
    pub fn plain(number: u32) -> Self {
        Reply { number, figure: 0 }
    }

    /// The figure, or why there is none.
    pub fn figure(self) -> Result<u32, Refusal> {
        self.refusal().map_or(Ok(self.figure), Err)
    }

    pub fn refusal(self) -> Option<Refusal> {
        Some(match self.number {
            0 => return None,
            1 => Refusal::Outside,
            2 => Refusal::NotHeld,
            3 => Refusal::NoCapacity,
            4 => Refusal::BadBoundary,
            5 => Refusal::PointsFull,
            6 => Refusal::NodesFull,
            7 => Refusal::NoRoom,
            8 => Refusal::Unsound,
            other => unreachable!("no call gives the number {other}"),
        })
    }
}

impl Display for Refusal {
    fn fmt(&self, f: &mut Formatter) -> std::fmt::Result {
        f.write_str(match self {
            Refusal::Outside => "the point is outside the boundary",
            Refusal::NotHeld => "no equal point is held",
            Refusal::NoCapacity => "the capacity is 0",
            Refusal::BadBoundary => "the boundary is not acceptable",
            Refusal::PointsFull => "512 points are held already",
            Refusal::NodesFull => "no nodes are left for the point",
            Refusal::NoRoom => "there are more answers than room for them",
            Refusal::Unsound => "the tree is not sound",
        })
    }
}

impl Error for Refusal {}
