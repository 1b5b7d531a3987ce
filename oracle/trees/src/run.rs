//! A sequence of calls under way, what came of it, and the smallest part of it that fails.

use crate::call::Call;
use crate::kind::Kind;
use crate::pair::Pair;
use lent::watch::tick;
use oracle::random::Random;
use ralikudo::generic::Library;
use std::collections::BTreeMap;
use std::time::{Duration, Instant};

/// What a kind of sequence reached.
#[derive(Default)]
pub struct Tally {
    pub calls: u64,
    /// How often each call got each reply.
    pub replies: BTreeMap<(&'static str, u8), u64>,
    pub most_points: usize,
    pub most_nodes: usize,
}

impl Tally {
    pub fn join(&mut self, other: &Tally) {
        self.calls += other.calls;
        for (key, many) in &other.replies {
            *self.replies.entry(*key).or_default() += many;
        }
        self.most_points = self.most_points.max(other.most_points);
        self.most_nodes = self.most_nodes.max(other.most_nodes);
    }
}

pub struct Run<const N: usize>
where
    Library: Kind<N>,
{
    pub random: Random,
    pub pair: Pair<N>,
    pub tally: Tally,
    most: u64,
    log: Vec<Call<N>>,
    pub failed: Option<String>,
    payload: u32,
}

/// How long a sequence that fails is made shorter.
const SHORTENING: Duration = Duration::from_secs(5);

/// Calls that are kept for the case that one fails; a longer sequence begins anew.
const LONGEST: usize = 4000;

impl<const N: usize> Run<N>
where
    Library: Kind<N>,
{
    pub fn new(seed: u64, most: u64) -> Self {
        Run {
            random: Random::new(seed),
            pair: Pair::default(),
            tally: Tally::default(),
            most,
            log: Vec::new(),
            failed: None,
            payload: 0,
        }
    }

    pub fn done(&self) -> bool {
        self.failed.is_some() || self.tally.calls >= self.most
    }

    /// Memory that holds no tree, and a new sequence.
    pub fn begin(&mut self) {
        self.pair = Pair::default();
        self.log.clear();
    }

    /// Asks both sides and gives the reply number; nothing is asked any more once they differ.
    pub fn say(&mut self, call: Call<N>) -> u8 {
        if self.failed.is_some() {
            return 0;
        }
        if self.log.len() == LONGEST {
            self.begin();
        }
        tick();
        let answer = self.pair.ask(&call);
        self.tally.calls += 1;
        let reply = *answer.as_ref().unwrap_or(&0);
        *self.tally.replies.entry((call.name(), reply)).or_default() += 1;
        if let Some(rust) = &self.pair.rust {
            self.tally.most_points = self.tally.most_points.max(rust.len());
            self.tally.most_nodes = self.tally.most_nodes.max(rust.nodes());
        }
        self.log.push(call);
        if let Err(what) = answer {
            self.failed = Some(smallest(&self.log, what));
        }
        if self.tally.calls % 4096 == 0 && !self.pair.opened_is_unchanged() {
            self.failed = Some("the opened tree prints otherwise than the unchanged one".into());
        }
        reply
    }

    /// A payload that no point has yet, with bits anywhere.
    pub fn next_payload(&mut self) -> u32 {
        self.payload = self.payload.wrapping_add(0x9e37_79b9);
        self.payload
    }
}

/// What a sequence shows, from memory that holds no tree.
fn fails<const N: usize>(calls: &[Call<N>]) -> Option<String>
where
    Library: Kind<N>,
{
    let mut pair = Pair::default();
    tick();
    calls.iter().find_map(|call| pair.ask(call).err())
}

/// As few of the calls as still fail, with what they show.
fn smallest<const N: usize>(log: &[Call<N>], what: String) -> String
where
    Library: Kind<N>,
{
    let mut calls = log.to_vec();
    let mut what = fails(&calls).unwrap_or(what);
    let mut many = calls.len();
    let start = Instant::now();
    while many > 0 {
        let mut from = 0;
        while from + many <= calls.len() && start.elapsed() < SHORTENING {
            let fewer = [&calls[..from], &calls[from + many..]].concat();
            match fails(&fewer) {
                Some(shown) => (calls, what) = (fewer, shown),
                None => from += many,
            }
        }
        many /= 2;
    }
    let written: Vec<String> = calls.iter().map(Call::to_string).collect();
    format!("{}: {what}", written.join("; "))
}
