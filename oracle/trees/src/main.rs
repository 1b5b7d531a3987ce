//! Compares a tree of ours with the Rust's, call by call. The words are quadtree or octree, and MILLIONS, which says
//! how many calls there are in all.

mod call;
mod draw;
mod kind;
mod pair;
mod run;
mod rust;
mod sequences;
mod shape;
mod short;
mod streams;

use kind::{Kind, SpaceOf};
use lent::watch::two_at_a_time;
use lent::words::{words, Tree};
use oracle::check::Report;
use oracle::room::most_nodes;
use oracle::space::Space;
use ralikudo::generic::Library;
use run::{Run, Tally};
use std::process::ExitCode;
use std::sync::Mutex;

/// A test: its name, and what it does with a seed and a number of calls.
type Test<const N: usize> = (String, Box<dyn Fn(u64, u64) -> Run<N> + Sync>);

/// What a test reached, and how it failed.
type Came = (Tally, Option<String>);

fn tests<const N: usize>() -> Vec<Test<N>>
where
    Library: Kind<N>,
{
    let mut all: Vec<Test<N>> = Vec::new();
    for (name, round, share) in sequences::kinds() {
        let test = move |seed, most| {
            let mut run = Run::new(seed, most / share);
            while !run.done() {
                round(&mut run);
            }
            run
        };
        all.push((name, Box::new(test)));
    }
    for kind in streams::KINDS {
        let test = move |seed: u64, most| {
            let mut run = Run::new(seed, most);
            for part in 0.. {
                if run.done() {
                    break;
                }
                streams::stream(&mut run, kind, seed + 1000 * part, 2000);
            }
            run
        };
        all.push((format!("stream {kind}"), Box::new(test)));
    }
    // Small trees are quick, so that these get more.
    all.push(("four come and go".into(), Box::new(|seed, most| short_merges(seed, 4 * most))));
    all.push(("all short sequences".into(), Box::new(|seed, most| short_steps(seed, 4 * most))));
    all
}

/// All choices of places, or every so many-th where there are fewer calls.
fn short_merges<const N: usize>(seed: u64, most: u64) -> Run<N>
where
    Library: Kind<N>,
{
    let mut run = Run::new(seed, u64::MAX);
    let choices = short::choices(N);
    short::merges(&mut run, (choices * short::CALLS / most.max(1) as usize).clamp(1, choices));
    run
}

/// Sequences of as many steps as the calls allow.
fn short_steps<const N: usize>(seed: u64, most: u64) -> Run<N>
where
    Library: Kind<N>,
{
    let mut run = Run::new(seed, u64::MAX);
    let calls = |length: u32| 2 * 8u64.pow(length) * u64::from(length + 2);
    short::steps(&mut run, (1..7).take_while(|length| calls(*length) <= most.max(300)).last().unwrap_or(1));
    run
}

/// What each test came to, in order; nothing of one that stopped.
fn all<const N: usize>(tests: &[Test<N>], calls: u64) -> Vec<Option<Came>>
where
    Library: Kind<N>,
{
    let runs: Vec<Mutex<Option<Came>>> = tests.iter().map(|_| Mutex::new(None)).collect();
    let name = |number: usize| format!("{} {}", SpaceOf::<N>::NAME, tests[number].0);
    two_at_a_time(tests.len(), name, |number| {
        let Run { tally, failed, .. } = (tests[number].1)(number as u64 + 1, calls);
        *runs[number].lock().expect("nobody else takes it") = Some((tally, failed));
    });
    runs.into_iter().map(|run| run.into_inner().ok().flatten()).collect()
}

/// The replies that must have come, each many times.
const WANTED: [(&str, &[u8]); 11] = [
    ("create", &[0, 3, 4]),
    ("insert", &[0, 1, 5, 6]),
    ("insert_bulk", &[0, 5, 6]),
    ("delete", &[0, 1, 2]),
    ("contains", &[0]),
    ("len", &[0]),
    ("is_empty", &[0]),
    ("clear", &[0]),
    ("range_search", &[0, 7]),
    ("range_search_bbox", &[0, 7]),
    ("knn_search", &[0, 7]),
];

fn coverage(axes: usize, tally: &Tally) -> Result<String, String> {
    let many = |name, reply| tally.replies.get(&(name, reply)).copied().unwrap_or(0);
    let mut lines = Vec::new();
    for (name, replies) in WANTED {
        let each: Vec<String> = replies.iter().map(|r| format!("{} times {r}", many(name, *r))).collect();
        lines.push(format!("{name} {}", each.join(", ")));
        if let Some(reply) = replies.iter().find(|reply| many(name, **reply) < 20) {
            return Err(format!("{name} got {reply} only {} times", many(name, *reply)));
        }
    }
    let reached = format!("{} points and {} nodes", tally.most_points, tally.most_nodes);
    if (tally.most_points, tally.most_nodes) != (512, most_nodes(axes)) {
        return Err(format!("at most {reached}"));
    }
    Ok(format!("{} calls, up to {reached}; {}", tally.calls, lines.join("; ")))
}

/// All tests of the tree with so many axes: whether they passed.
fn compare<const N: usize>(millions: f64) -> bool
where
    Library: Kind<N>,
{
    let tests = tests::<N>();
    let calls = (millions * 1e6 / tests.len() as f64) as u64;
    let mut report = Report::default();
    let mut tally = Tally::default();
    for ((name, _), run) in tests.iter().zip(all(&tests, calls)) {
        let outcome = run.map_or(Err("it stopped".into()), |(of_run, failed)| {
            tally.join(&of_run);
            failed.map_or(Ok(format!("{} calls", of_run.calls)), Err)
        });
        report.test(&format!("{} {name}", SpaceOf::<N>::NAME), outcome);
    }
    report.test(&format!("{} coverage", SpaceOf::<N>::NAME), coverage(N, &tally));
    report.all_passed()
}

fn main() -> ExitCode {
    let passed = match words() {
        Some((Tree::Quadtree, millions)) => compare::<2>(millions),
        Some((Tree::Octree, millions)) => compare::<3>(millions),
        None => {
            eprintln!("oracle: the words are quadtree or octree, and a number of millions of calls");
            return ExitCode::from(2);
        }
    };
    ExitCode::from(u8::from(!passed))
}
