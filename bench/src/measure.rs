//! How long both sides take, measured by turns.

use crate::benchmark::{Benchmark, Side, INPUTS};
use crate::figures::Figures;
use std::hint::black_box;
use std::time::{Duration, Instant};

/// Runs of each side, where a benchmark asks for no other number.
pub const RUNS: usize = 51;

/// A run has so many rounds that the faster side takes this long.
const LEAST: Duration = Duration::from_millis(1);

fn time(side: &Side, rounds: usize) -> Duration {
    let work = |i: usize| {
        black_box((side.work)(black_box(i % INPUTS)));
    };
    let Some(before) = &side.before else {
        let start = Instant::now();
        (0..rounds).for_each(work);
        return start.elapsed();
    };
    let once = |i: usize| {
        before();
        let start = Instant::now();
        work(i);
        start.elapsed()
    };
    (0..rounds).map(once).sum()
}

/// How many rounds make a run: whole turns of the inputs.
fn rounds(benchmark: &Benchmark) -> usize {
    let mut rounds = INPUTS;
    while time(&benchmark.ours, rounds).min(time(&benchmark.other, rounds)) < LEAST {
        rounds *= 2;
    }
    rounds
}

/// Nanoseconds for one round of each side.
pub fn measure(benchmark: &Benchmark) -> Figures {
    let rounds = rounds(benchmark);
    let run = |side: &Side| time(side, rounds).as_nanos() as f64 / rounds as f64;
    Figures::of(benchmark.runs, |ours_first| {
        if ours_first {
            let ours = run(&benchmark.ours);
            (ours, run(&benchmark.other))
        } else {
            let other = run(&benchmark.other);
            (run(&benchmark.ours), other)
        }
    })
}
