//! The tests, each told in one line.

mod bulk;
mod coverage;
mod examples;
mod marks;
mod plain;
mod recordings;
mod report;
mod streams;
mod words;

pub use examples::{joined as joined_examples, streams as example_streams};
pub use report::Report;
use std::path::Path;

/// Runs every test that needs no library of ours.
pub fn run(recorded: &Path) -> Report {
    let mut report = Report::default();
    examples::run(&mut report);
    words::run(&mut report);
    streams::run(&mut report);
    bulk::run(&mut report);
    recordings::run(&mut report, recorded);
    coverage::run(&mut report, recorded);
    report
}
