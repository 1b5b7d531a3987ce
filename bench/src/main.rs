//! Our library against the Rust and other things: the same inputs, in one process, by turns. Words:
//!   check   tries whether both sides give the same, and takes no time
//!   FILE    prints the table, and writes it to FILE as CSV; with a TEXT behind it only the lines whose name holds that

mod benchmark;
mod figures;
mod knn;
mod measure;
mod table;
mod trees;

use benchmark::Benchmark;
use std::process::ExitCode;

/// What is said where they are not linked.
fn left_out(before: &str) -> String {
    let said = format!("{before}Boost.Geometry and nanoflann are not installed and left out");
    if cfg!(others) {
        String::new()
    } else {
        said
    }
}

/// Every benchmark, in the order of the table.
fn all() -> Vec<Benchmark> {
    knn::all().into_iter().chain(trees::all()).collect()
}

fn main() -> ExitCode {
    let words: Vec<String> = std::env::args().skip(1).collect();
    let (word, only) = match &words[..] {
        [word] => (word, ""),
        [word, only] => (word, only.as_str()),
        _ => {
            eprintln!("bench: the words are check, or the name of a file for the figures and a text");
            return ExitCode::from(2);
        }
    };
    let mut all = all();
    all.retain(|benchmark| benchmark.to_string().contains(only));
    if let Some(wrong) = all.iter().find(|benchmark| !benchmark.agrees()) {
        println!("FAILED bench: {wrong}: the two give other answers");
        return ExitCode::FAILURE;
    }
    if word == "check" {
        println!("ok bench ({} cases, both sides give the same{})", all.len(), left_out("; "));
        return ExitCode::SUCCESS;
    }
    let lines: Vec<_> = all.iter().map(|benchmark| (benchmark, measure::measure(benchmark))).collect();
    table::print(&lines);
    println!("{}", left_out("\n"));
    if let Err(error) = std::fs::write(word, table::csv(&lines)) {
        eprintln!("bench: {word}: {error}");
        return ExitCode::from(2);
    }
    ExitCode::SUCCESS
}
