//! Our static library, linked: what the crate `probe` lets C call, made safe to call.

pub mod geometry;
pub mod knn;
