//! 512 offers to an empty candidate table, and the kept items read in order. What is timed is a whole life of
//! the table: ours in arrays of 512 places filled at the start, the Rust's a heap made anew that ends in a
//! sorted list.

use crate::benchmark::{Benchmark, Side, INPUTS};
use crate::measure::RUNS;
use oracle::random::Random;
use spart::private::Heap;

/// Offers, and places in our table.
const MANY: usize = 512;

const KS: [usize; 4] = [1, 8, 64, 512];

type List = [f64; MANY];

fn ours(k: usize, distances: &List) -> u64 {
    let (mut dist, mut item) = ([0.0; MANY], [0; MANY]);
    let mut count = 0;
    for (place, distance) in distances.iter().enumerate() {
        count = ours::knn::offer(&mut dist, &mut item, count, k, *distance, place as u32);
    }
    read(&item[..count])
}

fn rust(k: usize, distances: &List) -> u64 {
    let mut heap = Heap::new(k);
    for (place, distance) in distances.iter().enumerate() {
        heap.offer(*distance, place as u32);
    }
    read(&heap.into_sorted_vec())
}

/// A number that depends on every item and its place.
fn read(items: &[u32]) -> u64 {
    items.iter().zip(1..).map(|(item, place)| u64::from(item + 1) * place).sum()
}

fn lists(input: &str) -> Vec<List> {
    let mut random = Random::new(1);
    let list = |_| match input {
        "ascending" => std::array::from_fn(|i| i as f64),
        "descending" => std::array::from_fn(|i| (MANY - i) as f64),
        _ => std::array::from_fn(|_| random.unit()),
    };
    (0..INPUTS).map(list).collect()
}

pub fn all() -> Vec<Benchmark> {
    let inputs = ["ascending", "descending", "random"];
    let cases = KS.into_iter().flat_map(|k| inputs.map(|input| (k, input)));
    let benchmark = |(k, input): (usize, &'static str)| {
        let (mine, theirs) = (lists(input), lists(input));
        Benchmark {
            what: "512 offers to a table of k".into(),
            size: k,
            input,
            beside: "the Rust",
            runs: RUNS,
            ours: Side::new(move |i| ours(k, &mine[i])),
            other: Side::new(move |i| rust(k, &theirs[i])),
        }
    };
    cases.map(benchmark).collect()
}
