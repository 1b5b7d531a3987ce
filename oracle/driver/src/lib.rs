//! The oracle: the Rust given answers document 01's records, and is held against document 01's words.

pub mod bits;
pub mod calls;
pub mod check;
pub mod compare;
pub mod edges;
pub mod functions;
pub mod generate;
pub mod inputs;
pub mod program;
pub mod questions;
pub mod random;
pub mod record;
pub mod recorded;
pub mod room;
pub mod rules;
pub mod space;
