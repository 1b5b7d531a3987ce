//! Document 01's words for boxes, routing, distances and the candidate table against the Rust.

use super::report::{Outcome, Report};
use crate::bits::{hex, special};
use crate::compare::{run as compare, Verdict};
use crate::functions::{all, Function};
use crate::random::Random;
use crate::rules::table::Table;
use spart::private;

/// Inputs for each function.
const INPUTS: u64 = 1_000_000;

pub fn run(report: &mut Report) {
    for function in all() {
        one(report, &function);
    }
    report.test("words table", table());
}

/// The Rust and the rule must part where a departure is listed, and nowhere else.
fn one(report: &mut Report, function: &Function) {
    let tally = compare(function.form, INPUTS, |numbers, child| {
        let same = (function.rust)(numbers, child) == (function.rule)(numbers, child);
        match (function.departs(numbers), same) {
            (None, true) => Verdict::Same,
            (Some(reason), false) => Verdict::Listed(reason),
            _ => Verdict::Failed,
        }
    });
    let name = format!("words {}", function.word);
    let mut departed = 0;
    for (reason, group) in &tally.listed {
        departed += group.many;
        report.note(&format!(
            "{name}: departs where {reason}: smallest input {}: the Rust says {}, document 01 says {}",
            group.input(function.form),
            (function.rust)(&group.plainest, group.child),
            (function.rule)(&group.plainest, group.child),
        ));
    }
    let what = format!("{} inputs, {departed} depart as listed", tally.compared);
    report.test(&name, tally.failed.map_or(Ok(what), |group| Err(group.input(function.form))));
}

/// Sequences of distances offered to the Rust's heap and to the table.
fn table() -> Outcome {
    let mut random = Random::new(1);
    let distances = [0.0, 1.0, 1.0, 2.0, 3.0, f64::INFINITY, f64::NAN];
    let mut offered = 0;
    for round in 0..200_000 {
        let many = random.below(12) as usize;
        let draw = |random: &mut Random| match round % 4 {
            0 => special(random.bits()).abs(),
            _ => *random.pick(&distances),
        };
        let list: Vec<f64> = (0..many).map(|_| draw(&mut random)).collect();
        let k = random.below(6) as usize;
        let mut table = Table::new(k);
        list.iter().enumerate().for_each(|(i, d)| table.offer(*d, i));
        if table.items() != private::nearest(k, &list) {
            let list: Vec<String> = list.iter().map(|d| hex(*d)).collect();
            return Err(format!("k {k}, distances {}", list.join(",")));
        }
        offered += many;
    }
    Ok(format!("200000 sequences, {offered} distances offered"))
}
