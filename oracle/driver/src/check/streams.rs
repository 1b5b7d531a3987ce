//! Generated streams answered by the Rust and by document 01's words, and the opened trees looked at.

use super::report::{Outcome, Report};
use crate::generate::{generate, kinds};
use crate::program::Program;
use crate::record::{records, Record};
use crate::room::Room;
use crate::rules::tree::Tree;
use crate::space::{Plane, Solid, Space};
use spart::opened::Opened;

/// Streams of each kind and records in each.
const STREAMS: u64 = 10;
const RECORDS: usize = 2000;

pub fn run(report: &mut Report) {
    of_space::<Plane>(report);
    of_space::<Solid>(report);
}

fn of_space<S: Space>(report: &mut Report) {
    for kind in kinds::<S>() {
        report.test(&format!("streams {}-{}", S::WORD, kind.name), kind_alike::<S>(kind.name));
    }
}

fn kind_alike<S: Space>(kind: &str) -> Outcome {
    let mut answered = 0;
    for seed in 0..STREAMS {
        let stream = generate::<S>(kind, 1000 + seed, RECORDS).ok_or("no such kind")?;
        answered += alike::<S>(&stream).map_err(|e| format!("seed {}: {e}", 1000 + seed))?;
    }
    Ok(format!("{answered} records of the Rust and of the rules"))
}

/// Both programs answer each record alike, the opened tree prints as the unchanged one, and its nodes are counted.
fn alike<S: Space>(stream: &[u8]) -> Result<usize, String> {
    let mut rust = Program::<Room<S>>::new(S::AXES, S::WORD);
    let mut rules = Program::<Tree>::new(S::AXES, S::WORD);
    let mut number = 0;
    for record in records(stream) {
        number += 1;
        let (a, b) = (rust.answer(&record), rules.answer(&record));
        let line = if let Record::Line(line) = record { line } else { b"(broken)" };
        let shown = || format!("record {number}: {}", String::from_utf8_lossy(line));
        if a != b {
            return Err(format!("{}: the Rust says {a}, document 01 says {b}", shown()));
        }
        let room = rust.held.as_ref().filter(|_| number % 50 == 0);
        if room.is_some_and(|room| format!("{:?}", room.tree()) != format!("{:?}", room.shape())) {
            return Err(format!("{}: the opened tree is another", shown()));
        }
        if room.is_some_and(|room| room.limited().nodes() != room.shape().nodes()) {
            return Err(format!("{}: the nodes are counted wrongly", shown()));
        }
    }
    Ok(number)
}
