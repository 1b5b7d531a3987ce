//! Compares our compiled geometry with the Rust's and with document 01's words, bit for bit.
//! The word MILLIONS says how many inputs each function gets.

use oracle::bits::answer_bits;
use oracle::check::Report;
use oracle::compare::{run as compare, Tally, Verdict};
use oracle::functions::{all, Answer, Ask, Function};
use oracle::inputs::Form;
use std::process::ExitCode;

fn main() -> ExitCode {
    let millions = std::env::args().nth(1).map_or(Ok(10), |word| word.parse::<u64>());
    let Ok(millions) = millions else {
        eprintln!("oracle: geometry takes a number of millions");
        return ExitCode::from(2);
    };
    let mut report = Report::default();
    let functions = all().into_iter().chain(conversions());
    for (function, ours) in functions.zip(ours::geometry::all()) {
        one(&mut report, &function, ours, millions * 1_000_000);
    }
    if report.all_passed() {
        ExitCode::SUCCESS
    } else {
        ExitCode::FAILURE
    }
}

/// Numbers to and from their bits; the Rust given has no such functions, so the standard library's stand in.
fn conversions() -> Vec<Function> {
    let to_bits: Ask = |n, _| Answer::Index(answer_bits(n[0]) as usize);
    let from_bits: Ask = |n, _| Answer::Float(n[0]);
    let function = |word, ask| Function { word, form: Form::Value, rust: ask, rule: ask, departure: None };
    vec![function("to_bits", to_bits), function("from_bits", from_bits)]
}

/// Ours must be the rule everywhere, and part from the Rust where a departure is listed and nowhere else.
fn one(report: &mut Report, function: &Function, ours: Ask, inputs: u64) {
    let tally = compare(function.form, inputs, |numbers, child| {
        let answer = ours(numbers, child);
        let right = answer == (function.rule)(numbers, child);
        let as_rust = answer == (function.rust)(numbers, child);
        match (function.departs(numbers), right, as_rust) {
            (None, true, true) => Verdict::Same,
            (Some(reason), true, false) => Verdict::Listed(reason),
            _ => Verdict::Failed,
        }
    });
    report.test(&format!("geometry {}", function.word), outcome(&tally, function, ours));
}

fn outcome(tally: &Tally, function: &Function, ours: Ask) -> Result<String, String> {
    if let Some(group) = &tally.failed {
        return Err(format!(
            "{}: ours {}, the Rust {}, document 01 {}; {} of {} inputs",
            group.input(function.form),
            ours(&group.plainest, group.child),
            (function.rust)(&group.plainest, group.child),
            (function.rule)(&group.plainest, group.child),
            group.many,
            tally.compared,
        ));
    }
    let listed = tally.listed.iter().map(|(reason, group)| format!(", {} depart: {reason}", group.many));
    Ok(format!("{} inputs{}", tally.compared, listed.collect::<String>()))
}
