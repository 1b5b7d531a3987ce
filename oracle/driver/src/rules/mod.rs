//! Document 01's words written down plainly, for any number of axes, to be held against the Rust.

pub mod boxes;
pub mod table;
pub mod tree;
