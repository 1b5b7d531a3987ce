//! A tree with 512 points, over the number of axes. Size is the capacity. Ours is called in two ways: the inner
//! calls rely on a sound tree as the Rust's do; the public ones test for that first, at every call.

mod calls;
mod case;
mod others;
mod ours;

use crate::benchmark::{Benchmark, Side};
use crate::measure::RUNS;
use calls::{Calls, Inner, Public, Sound};
use case::Case;
use oracle::random::Random;
use oracle::space::Space;
use ralikudo::generic::{Axes, Library, Point, Volume};
use std::hint::black_box;
use std::marker::PhantomData;
use std::rc::Rc;

const MANY: usize = 512;
const SIDE: f64 = 1024.0;

/// Fewer runs where the soundness test makes a run long.
const FEW_RUNS: usize = 11;

/// Questions of one round of `contains`.
const ASKED: usize = 16;

/// The capacity at which a tree stands beside other things than the Rust.
const USUAL: u32 = 16;

#[derive(Clone, Copy)]
pub enum Query {
    Radius(f64),
    /// The extent on each axis; the corner is the input's place.
    InBox(f64),
    Nearest(u32),
}

/// What one round does.
#[derive(Clone, Copy)]
pub enum Call {
    /// All points into an empty tree.
    Inserts,
    /// All points out of a full tree, in another order than they came.
    Deletes,
    Contains,
    Search(Query),
}

impl Call {
    fn name(self) -> String {
        match self {
            Call::Inserts => "512 inserts".into(),
            Call::Deletes => "512 deletes".into(),
            Call::Contains => "16 contains".into(),
            Call::Search(Query::Radius(_)) => "radius search".into(),
            Call::Search(Query::InBox(_)) => "box search".into(),
            Call::Search(Query::Nearest(k)) => format!("{k} nearest"),
        }
    }
}

pub fn area<const N: usize>() -> Volume<N> {
    Volume { corner: [0.0; N], extent: [SIDE; N] }
}

/// A number that depends on every payload and its place.
fn read(payloads: impl Iterator<Item = u32>) -> u64 {
    payloads.zip(1..).map(|(payload, place)| u64::from(payload + 1) * place).sum()
}

/// A number that depends on every payload and not on their order: the sum of their bits, well mixed.
fn unordered(payloads: impl Iterator<Item = u32>) -> u64 {
    let mixed = |payload: u32| {
        let x = (u64::from(payload) + 1).wrapping_mul(0x9E37_79B9_7F4A_7C15);
        let x = (x ^ (x >> 30)).wrapping_mul(0xBF58_476D_1CE4_E5B9);
        x ^ (x >> 27)
    };
    payloads.map(mixed).fold(0, u64::wrapping_add)
}

/// Anywhere, or around eight centres, closer and closer.
fn places<const N: usize>(input: &str, many: usize, seed: u64) -> Vec<[f64; N]> {
    let mut random = Random::new(seed);
    let mut centres = Random::new(7);
    let centres: Vec<[f64; N]> = (0..8).map(|_| [0; N].map(|_| 100.0 + 824.0 * centres.unit())).collect();
    let place = |_| match input {
        "uniform" => [0; N].map(|_| SIDE * random.unit()),
        _ => {
            let centre = *random.pick(&centres);
            centre.map(|v| v + 90.0 * (random.unit() - 0.5) * random.unit())
        }
    };
    (0..many).map(place).collect()
}

fn points<const N: usize>(input: &str) -> Vec<Point<N>> {
    places(input, MANY, 1).into_iter().zip(0..).map(|(at, payload)| Point { at, payload }).collect()
}

/// What differs from tree to tree.
#[derive(Clone, Copy)]
struct Sizes {
    /// The capacities with which all points find room, where they lie anywhere and where they lie in clusters.
    uniform: &'static [u32],
    clustered: &'static [u32],
    /// With these an answer has a handful of points where they lie anywhere.
    radius: f64,
    extent: f64,
}

impl Sizes {
    fn calls(self) -> [Call; 8] {
        let search = [Query::Radius(self.radius), Query::InBox(self.extent), 1.into(), 8.into(), 64.into()];
        let [a, b, c, d, e] = search.map(Call::Search);
        [Call::Inserts, Call::Deletes, Call::Contains, a, b, c, d, e]
    }
}

impl From<u32> for Query {
    fn from(k: u32) -> Query {
        Query::Nearest(k)
    }
}

/// The lines of one input and capacity, in the table's order.
struct Lines<S, const N: usize> {
    case: Case<S, N>,
    all: Vec<Benchmark>,
}

impl<S: Space, const N: usize> Lines<S, N>
where
    Library: Axes<N>,
    Inner: Calls<N> + Sound<N>,
{
    fn line(&mut self, what: &str, beside: &'static str, runs: usize, ours: Side, other: Side) {
        let (size, input) = (self.case.capacity as usize, self.case.input);
        let what = format!("{}: {what}", S::NAME);
        self.all.push(Benchmark { what, size, input, beside, runs, ours, other });
    }

    /// Our inner or our public calls beside the Rust's.
    fn beside_rust<C: Calls<N>>(&mut self, calls: &[Call], which: &str, runs: usize) {
        for &call in calls {
            let (ours, rust) = (self.case.ours::<C>(call, false), self.case.rust(call));
            self.line(&format!("{}, {which}", call.name()), "the Rust", runs, ours, rust);
        }
    }

    /// The soundness test, and what it costs the public calls.
    fn soundness(&mut self, calls: &[Call]) {
        let (ours, pieces) = (self.case.full::<Inner>(), self.case.full::<Inner>());
        let ours = Side::new(move |_| u64::from(ours.sound()));
        let sum = Side::new(move |_| u64::from(black_box(pieces.sum()) > 0));
        self.line("the soundness test", "a sum of all words", RUNS, ours, sum);
        if self.case.capacity == USUAL {
            for &call in calls {
                let sides = (self.case.ours::<Public>(call, false), self.case.ours::<Inner>(call, false));
                self.line(&format!("{}, public", call.name()), "ours, inner", FEW_RUNS, sides.0, sides.1);
            }
        }
    }

    fn beside_others(&mut self, calls: &[Call]) {
        for choice in others::choices() {
            for &call in calls {
                if let Some(other) = self.case.other(choice, call) {
                    let ours = self.case.ours::<Inner>(call, true);
                    self.line(&format!("{}, inner", call.name()), choice.name, RUNS, ours, other);
                }
            }
        }
    }
}

/// All lines of a tree.
fn lines<S: Space, const N: usize>(sizes: Sizes) -> Vec<Benchmark>
where
    Library: Axes<N>,
    Inner: Calls<N> + Sound<N>,
{
    let (mut all, calls) = (Vec::new(), sizes.calls());
    for (input, capacities) in [("uniform", sizes.uniform), ("clustered", sizes.clustered)] {
        let points = Rc::new(points(input));
        for &capacity in capacities {
            let case = Case { rust: PhantomData, input, capacity, points: points.clone() };
            let mut lines = Lines::<S, N> { case, all: Vec::new() };
            lines.beside_rust::<Inner>(&calls, "inner", RUNS);
            lines.beside_rust::<Public>(&calls, "public", FEW_RUNS);
            lines.soundness(&calls);
            if capacity == USUAL {
                lines.beside_others(&calls);
            }
            all.append(&mut lines.all);
        }
    }
    all
}

pub fn all() -> Vec<Benchmark> {
    let both: &[u32] = &[8, 16];
    let plane = Sizes { uniform: both, clustered: both, radius: SIDE / 16.0, extent: SIDE / 8.0 };
    let solid = Sizes { uniform: &[8, 16, 32], clustered: &[16, 32], radius: SIDE / 8.0, extent: SIDE / 4.0 };
    let mut all = lines::<oracle::space::Plane, 2>(plane);
    all.extend(lines::<oracle::space::Solid, 3>(solid));
    all
}
