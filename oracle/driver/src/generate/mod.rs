//! Streams of records by kind, seed and count.

mod crowded;
mod damaged;
mod merges;
mod midplanes;
mod mixed;
mod searches;
mod spans;
mod special;
mod stream;

use crate::space::Space;
pub use mixed::on_grid;
pub use spans::{stepped_side, takes_a_step};
pub use stream::Stream;

/// A kind of stream: its name and what adds one round of records.
pub struct Kind<S: Space> {
    pub name: &'static str,
    pub round: fn(&mut Stream<S>),
}

/// Every kind there is.
pub fn kinds<S: Space>() -> Vec<Kind<S>> {
    let kind = |name, round| Kind { name, round };
    vec![
        kind("uniform", mixed::uniform),
        kind("clustered", mixed::clustered),
        kind("grid", mixed::grid),
        kind("coincident", mixed::coincident),
        kind("midplanes", midplanes::midplanes),
        kind("full", crowded::full),
        kind("nodes", crowded::nodes),
        kind("merges", merges::merges),
        kind("special", special::special),
        kind("radii", searches::radii),
        kind("nearest", searches::nearest),
        kind("spans", spans::spans),
        kind("damaged", damaged::damaged),
        kind("long", damaged::long),
    ]
}

/// The stream of this kind, seed and count, or nothing where no kind has this name.
pub fn generate<S: Space>(name: &str, seed: u64, count: usize) -> Option<Vec<u8>> {
    let kind = kinds::<S>().into_iter().find(|kind| kind.name == name)?;
    let mut stream = Stream::<S>::new(seed, count);
    while !stream.done() {
        (kind.round)(&mut stream);
    }
    Some(stream.bytes())
}
