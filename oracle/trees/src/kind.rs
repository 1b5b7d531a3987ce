//! Both sides by their number of axes: the library, and the Rust's geometry and tree.

use oracle::space::Space;
use ralikudo::generic::{Axes, Library};

pub trait Kind<const N: usize>: Axes<N> {
    type Space: Space;
}

impl Kind<2> for Library {
    type Space = oracle::space::Plane;
}

impl Kind<3> for Library {
    type Space = oracle::space::Solid;
}

/// The Rust's geometry for so many axes.
pub type SpaceOf<const N: usize> = <Library as Kind<N>>::Space;
