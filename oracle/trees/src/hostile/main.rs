//! Asks a tree of ours about damaged pieces: each call must end, answer 8 exactly where the test of soundness over
//! in `lent::sound` says that the tree is not sound, and then change nothing. The words are quadtree or octree, and
//! MILLIONS, which says how many pieces there are in all.

mod asks;
mod base;
mod damage;
mod fence;

use asks::{ask, ask_fenced, Words, CALLS};
use base::Base;
use fence::Fence;
use lent::layout::*;
use lent::memory::Memory;
use lent::sound::sound;
use lent::watch::{tick, two_at_a_time};
use lent::words::{words, Tree};
use oracle::check::Report;
use oracle::random::Random;
use ralikudo::generic::{Axes, Library};
use std::process::ExitCode;
use std::sync::Mutex;

/// Pieces that are made from one sound tree.
const FROM_ONE: u64 = 400;
/// Each piece is asked one call in turn, and every so many-th all of them, these also where memory ends.
const ALL_CALLS: u64 = 16;

/// The kinds after those of `damage::kinds`.
const MEANINGLESS: usize = damage::MANY;
const LENGTH: usize = MEANINGLESS + 1;

fn name(kind: usize) -> &'static str {
    match kind {
        MEANINGLESS => "bytes that mean nothing",
        LENGTH => "lengths",
        _ => damage::kinds::<2>()[kind].0,
    }
}

/// How many pieces of a kind were asked, and how many of them were still sound.
#[derive(Default)]
struct Tally {
    pieces: u64,
    sound: u64,
    calls: u64,
    failed: Option<String>,
}

/// Pieces of the right length, but for one at least.
fn wrong_lengths(axes: usize, random: &mut Random) -> [usize; 4] {
    let mut wrong = lengths(axes);
    let place = 4 * point_words(axes);
    for _ in 0..random.between(1, 2) {
        let piece = random.below(4) as usize;
        let right = lengths(axes)[piece];
        wrong[piece] = match random.below(6) {
            0 => 0,
            1 => random.below(right as u64) as usize,
            2 => right - 1,
            3 => right - *random.pick(&[4, 8, 16, place]),
            4 => right + 1,
            _ => right + *random.pick(&[4, 8, 16, place, 60]),
        };
    }
    wrong
}

/// Where two memories differ, in words: the piece, the word, before and after.
fn differences<const N: usize>(base: &Memory<N>, other: &Memory<N>) -> String {
    let names = ["head", "nodes", "links", "points"];
    let pairs = base.pieces().into_iter().zip(other.pieces()).zip(names);
    let differ = |((a, b), name): ((&[u8], &[u8]), &'static str)| {
        let (a, b) = (a.to_vec(), b.to_vec());
        let words = (0..a.len() / 4).filter(move |i| word(&a, *i) != word(&b, *i));
        words.map(move |i| (name, i)).collect::<Vec<_>>()
    };
    let all: Vec<_> = pairs.flat_map(differ).collect();
    let shown: Vec<String> = all.iter().take(12).map(|(name, i)| format!("{name} word {i}")).collect();
    format!("{} words differ: {}", all.len(), shown.join(", "))
}

/// The memory that all pieces of a kind stand in, one after the other.
struct Stage<const N: usize> {
    memory: Memory<N>,
    before: Memory<N>,
    fence: Fence,
}

/// One damaged piece, asked one call or all.
fn piece<const N: usize>(kind: usize, number: u64, base: &Base<N>, stage: &mut Stage<N>, tally: &mut Tally)
where
    Library: Axes<N>,
{
    let Stage { memory, before, fence } = stage;
    let mut random = Random::new(number * 64 + kind as u64);
    memory.copy(&base.memory);
    let mut at_lengths = lengths(N);
    match kind {
        MEANINGLESS => damage::meaningless(&mut random, base, memory),
        LENGTH => at_lengths = wrong_lengths(N, &mut random),
        _ => damage::kinds()[kind].1(&mut random, base, memory),
    }
    before.copy(memory);
    let is_sound = at_lengths == lengths(N) && sound::<N>(memory.pieces());
    tally.pieces += 1;
    tally.sound += u64::from(is_sound);
    let place = base.any_place(&mut random);
    let points = before.pieces()[3];
    let words = Words::new(&mut random, at(points, place), payload::<N>(points, place));
    let first = (number % CALLS.len() as u64) as usize;
    let many = if number % ALL_CALLS == 0 { CALLS.len() } else { 1 };
    for turn in 0..many {
        let call = (first + turn) % CALLS.len();
        tally.calls += 1;
        let mut outcome = ask(call, &words, is_sound, at_lengths, memory, before);
        if outcome.is_ok() && many > 1 {
            outcome = ask_fenced(call, &words, at_lengths, memory, fence);
        }
        if let Err(what) = outcome {
            let from = differences(&base.memory, before);
            let case = format!("{}, piece {number}, base {}", name(kind), number / FROM_ONE);
            tally.failed = Some(format!("{case}, lengths {at_lengths:?}: {what}; {from}"));
            return;
        }
        if kind == MEANINGLESS && !is_sound {
            tally.failed = Some(format!("piece {number}: the test of soundness looks at what means nothing"));
            return;
        }
    }
}

fn run<const N: usize>(kind: usize, pieces: u64) -> Tally
where
    Library: Axes<N>,
{
    let mut tally = Tally::default();
    let mut stage = Stage { memory: Memory::default(), before: Memory::default(), fence: Fence::new() };
    let mut base: Result<Base<N>, String> = Err(String::new());
    for number in 0..pieces {
        if number % FROM_ONE == 0 {
            base = Base::new(number / FROM_ONE);
        }
        match &base {
            Ok(base) => piece(kind, number, base, &mut stage, &mut tally),
            Err(what) => tally.failed = Some(what.clone()),
        }
        tick();
        if tally.failed.is_some() {
            break;
        }
    }
    tally
}

/// What every kind came to, of the tree of this name.
fn all<const N: usize>(tree: &str, pieces: u64) -> Vec<Tally>
where
    Library: Axes<N>,
{
    let tallies: Vec<Mutex<Tally>> = (0..=LENGTH).map(|_| Mutex::default()).collect();
    two_at_a_time(
        tallies.len(),
        |kind| format!("hostile {tree} {}", name(kind)),
        |kind| {
            *tallies[kind].lock().expect("nobody else takes it") = run::<N>(kind, pieces);
        },
    );
    tallies.into_iter().filter_map(|tally| tally.into_inner().ok()).collect()
}

/// All kinds of damage to the tree of this name and so many axes: whether they passed.
fn ask_all<const N: usize>(tree: &str, millions: f64) -> bool
where
    Library: Axes<N>,
{
    let mut report = Report::default();
    let each = (millions * 1e6 / (LENGTH + 1) as f64) as u64;
    let mut calls = 0;
    for (kind, tally) in all::<N>(tree, each).into_iter().enumerate() {
        calls += tally.calls;
        let what = format!("{} pieces, {} of them still sound", tally.pieces, tally.sound);
        let stopped = (tally.pieces < each).then(|| format!("it stopped after {what}"));
        report
            .test(&format!("hostile {tree} {}", name(kind)), tally.failed.or(stopped).map_or(Ok(what), Err));
    }
    report.note(&format!("{calls} calls on damaged pieces of the {tree}"));
    report.all_passed()
}

fn main() -> ExitCode {
    let passed = match words() {
        Some((Tree::Quadtree, millions)) => ask_all::<2>("quadtree", millions),
        Some((Tree::Octree, millions)) => ask_all::<3>("octree", millions),
        None => {
            eprintln!("oracle: the words are quadtree or octree, and a number of millions of damaged pieces");
            return ExitCode::from(2);
        }
    };
    ExitCode::from(u8::from(!passed))
}
